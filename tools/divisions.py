#!/usr/bin/env python3
"""divisions.py: that the code divides only by numbers that no machine needs a division routine for (request 104).

In the sources of every crate `%` and `/` stand before a number, and that is a power of two, which is a shift, or 10, for the digits of a
numeral, which is a multiplication. So none stands before P, or before a name. Comments and contracts are no code. Prints each place that is
otherwise; the status is then 1."""
import pathlib
import re
import sys

sys.dont_write_bytecode = True
from source import code_of

DIVISION = re.compile(r"[%/]=?\s*(\w*)")


def shift_or_numeral(divisor):
    number = int(divisor) if divisor.isdecimal() else 0
    return number == 10 or number > 0 and number & (number - 1) == 0


def main():
    wrong, count = [], 0
    for path in sorted(pathlib.Path("crates").glob("*/src/**/*.rt")):
        code = code_of(path.read_text(encoding="utf-8"))
        for found in DIVISION.finditer(code):
            count += 1
            if not shift_or_numeral(found.group(1)):
                line = code.count("\n", 0, found.start())
                wrong.append("%s:%d: %s" % (path, line + 1, code.split("\n")[line].strip()))
    wrong.append("divisions: %d, %d of them by P, by a name or by another number than a power of two or 10" % (count, len(wrong)))
    print("\n".join(wrong))
    return 1 if len(wrong) > 1 or count == 0 else 0


sys.exit(main())
