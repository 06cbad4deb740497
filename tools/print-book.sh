#!/usr/bin/env bash
# print-book.sh BOOK: proves and builds the printer, then prints the book's answer.
# Status: 0 every entry SAME; 1 some DIFF, none REFUSED; 2 some REFUSED, or the book itself;
# 3 no verdict could be had, or it could not be written.
set -uo pipefail
tools=$(dirname "$0")
none() { # says why there is no verdict
    printf 'print-book.sh: %s\n' "$*" >&2
    exit 3
}
[ $# = 1 ] || none 'one word is wanted, the file of a book'
work=$(mktemp -d) || none 'there is no room for temporary files'
trap 'rm -rf "$work"' EXIT

verdict_of() { # the status that an answer stands for; 3 where it is not a whole answer
    [ "$(tail -c 1 "$1" | wc -l)" = 1 ] || { echo 3; return; }
    awk '
        NR == 1 && /^BOOK REFUSED / { refused = 1; entries = 0; next }
        NR == 1 && /^BOOK [1-4] [0-9]+$/ { entries = $3; next }
        NR > 1 && $1 == NR - 2 && $2 == "SAME" { next }
        NR > 1 && $1 == NR - 2 && $2 == "DIFF" { different = 1; next }
        NR > 1 && $1 == NR - 2 && $2 == "REFUSED" { refused = 1; next }
        { foreign = 1 }
        END { print foreign || NR != entries + 1 ? 3 : refused ? 2 : different ? 1 : 0 }' "$1"
}

# The printer reads no more than this; a file that fails is no book that ends.
head -c 65536 -- "$1" > "$work/book" || none "$1 was not read"
bash "$tools/prove.sh" printer || none 'the printer is not proved'
"$tools/../crates/printer/out/printer" < "$work/book" > "$work/answer" || none 'the printer failed'
verdict=$(verdict_of "$work/answer")
[ "$verdict" -le 2 ] || none "the printer's answer is not whole"
cat "$work/answer" || none 'the answer was not written'
exit "$verdict"
