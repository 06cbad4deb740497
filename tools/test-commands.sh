#!/usr/bin/env bash
# test-commands.sh [PART ..]: what people type, tried as people do. Parts: unmade (nothing is lost where no book can
# be made), made (books from text), verdicts (every status), outputs (full disks, files that cannot be read), proving
# (what is said while something is proved); without one all of them. It needs the proved printer and desk.
set -euo pipefail
cd "$(dirname "$0")/.."
unset MAKEFLAGS MFLAGS MAKELEVEL BOOK ROW FILE OUT
work=$(mktemp -d)
trap 'rm -rf "$work"' EXIT
tried=0

fail() { # with what the last command printed and said
    echo "test-commands.sh: $*" >&2
    head -n 20 "$work/out" "$work/err" >&2
    exit 1
}
ends() { # ends STATUS COMMAND ..
    local wanted=$1 status=0
    shift
    timeout 900 "$@" > "$work/out" 2> "$work/err" || status=$?
    [ "$status" = "$wanted" ] || fail "$*: status $status, not $wanted"
    tried=$((tried + 1))
}
prints() { # prints LINE ..: just these lines, by the last command
    printf '%s\n' "$@" | cmp -s - "$work/out" || fail "not printed: $*"
}
says() { # says TEXT: on standard error, by the last command
    grep -qF -- "$1" "$work/err" || fail "not said: $1"
}
text() { printf '%b' "$1" > "$work/text"; }
lines() { seq "$1" | sed 's/.*/X/' > "$work/text"; }
book() { # book ROW OUT: of the text as it stands
    ends 0 make book ROW="$1" FILE="$work/text" OUT="$2"
}

# ---- books that are made, and printed back
made_as() { # made_as ROW TEXT LINE ..: the printer's answer to the book of the text
    text "$2"
    book "$1" "$work/made.book"
    shift 2
    ends 0 crates/printer/out/printer < "$work/made.book"
    prints "$@"
}
made() {
    made_as XY '(* (+ X Y) (- X Y))\n(- (EXPT X 2) (EXPT Y 2))\n(* X Y)\n0\n(+ X Y Z)\n1\n' \
        'BOOK 2 3' '0 SAME' '1 DIFF 1 1 1 0' '2 REFUSED E 4 7'
    cmp -s "$work/made.book" crates/printer/stdin || fail 'the book of case B is another one'
    made_as XY '(* (+ X Y)\n   (- X Y))\n(- (EXPT X 2)\n\n(EXPT Y 2)\n)\n(* X Y)\n0\n' 'BOOK 2 2' '0 SAME' '1 DIFF 1 1 1 0'
    made_as X '# a comment\n\n  # another\nX\n \n# between\n(+ X\n0)\n\n\n\n' 'BOOK 1 1' '0 SAME'
    made_as X 'X\nX' 'BOOK 1 1' '0 SAME'
    text "$(printf '%65523s' X)\nX\n"
    book X "$work/long.book"
    [ "$(wc -c < "$work/long.book")" = 65535 ] || fail 'the longest book is not'
    lines 128
    book X "$work/full.book"
    ends 0 crates/printer/out/printer < "$work/full.book"
    [ "$(wc -l < "$work/out")" = 65 ] || fail 'not 64 entries'
}

# ---- books that are not: OUT is as it was, or still none, and nothing else is left
nothing_lost() {
    cmp -s "$work/good.book" crates/printer/stdin || fail 'a good book was lost'
    [ ! -e "$work/none.book" ] || fail 'a book is there'
    [ -z "$(find "$work" -name '*.new-*')" ] || fail 'something is left beside'
}
not_made() { # not_made SAID ROW [OUT]: of the text as it stands
    local out
    for out in "${3:-$work/good.book}" "${3:-$work/none.book}"; do
        ends 2 make book ROW="$2" FILE="$work/text" OUT="$out"
        nothing_lost
        says "$1"
    done
}
wrong_names() {
    text 'X\nX\n'
    for row in xy XX XYZWV X,Y ''; do not_made 'a row is 1 to 4 distinct letters A to Z' "$row"; done
    ends 2 make book FILE="$work/text" OUT="$work/good.book"
    says 'ROW=XY'
    ln "$work/text" "$work/hard"
    ln -s text "$work/soft"
    for name in text ./text hard soft; do not_made 'is the file of the formulas itself' X "$work/$name"; done
    printf 'X\nX\n' | cmp -s - "$work/text" || fail 'the formulas were lost'
    mkfifo "$work/pipe"
    for name in pipe .; do not_made 'is no plain file' X "$work/$name"; done
    not_made 'No such file' X "$work/none/x.book"
    cp "$work/good.book" "$work/closed.book"
    chmod 444 "$work/closed.book"
    not_made 'may not be written' X "$work/closed.book"
    cmp -s "$work/closed.book" "$work/good.book" || fail 'a book that may not be written was'
    rm "$work/text"
    not_made 'No such file' X
    mkdir "$work/text"
    not_made 'Is a directory' X
    rmdir "$work/text"
}
wrong_text() { # wrong_text SAID TEXT
    text "$2"
    not_made "$work/text:$1" X
}
wrong_texts() {
    wrong_text '1: the line ends with CR LF' 'X\r\nX\r\n'
    wrong_text '4: the formula that begins here goes on to the end of the file' 'X\nX\n\n(+ X\n1\n'
    wrong_text '3: a line that begins with # inside the formula of line 2' 'X\n(+ X\n# and\n1)\n'
    wrong_text '3: a parenthesis is closed that was not opened' 'X\n\n(+ X 1))\n'
    wrong_text '4: an odd number of formulas, 3' 'X\nX\n# here\n(+ X\n 1)\n'
    wrong_text ' there is no formula in it' '# nothing\n\n'
    wrong_text '2: byte 0x09 (a tab) in column 5' 'X\n(+ X\t1)\n'
    wrong_text '1: byte 0xef (a byte order mark) in column 1' '\xef\xbb\xbfX\nX\n'
    wrong_text '2: with this formula the book passes 65535 bytes' "$(printf '%65524s' X)\nX\n"
    lines 130
    not_made "$work/text:129: one entry too many begins here; a book has at most 64" X
}
full_disk() { # no file may grow
    local status=0 maker=tools/makebook/target/release/makebook
    text 'X\nX\n'
    (trap '' XFSZ && ulimit -f 0 && exec "$maker" X "$work/text" "$work/good.book") 2>&1 | cat > "$work/err" || status=$?
    [ "$status" = 1 ] || fail "a full disk: status $status"
    says 'not written'
    nothing_lost
    ends 0 "$maker" --help
    ends 0 "$maker" --version
    ends 1 "$maker" X
    "$maker" X "$work/text" "$work/said.book" > /dev/full 2> "$work/err" || fail 'a book was made, and that only could not be said'
    says 'standard output'
    ends 1 bash -c '"$1" --help > /dev/full' - "$maker"
}
others_file() { # a file that somebody else has closed, in a folder that everybody may write: only root can set that up
    [ "$(id -u)" = 0 ] || return 0
    local shared=$work/shared
    chmod 711 "$work"
    mkdir -m 777 "$shared"
    cp tools/makebook/target/release/makebook "$shared"
    printf 'X\nX\n' > "$shared/text"
    install -m 600 crates/printer/stdin "$shared/closed.book"
    ends 1 setpriv --reuid=65534 --regid=65534 --clear-groups "$shared/makebook" X "$shared/text" "$shared/closed.book"
    cmp -s "$shared/closed.book" crates/printer/stdin || fail 'a file of somebody else was replaced'
    says 'may not be written'
    ends 0 setpriv --reuid=65534 --regid=65534 --clear-groups "$shared/makebook" X "$shared/text" "$shared/own.book"
}
unmade() {
    cp crates/printer/stdin "$work/good.book"
    wrong_names
    wrong_texts
    full_disk
    others_file
}

# ---- print-book.sh tells the verdicts apart, run ends well wherever there was one, sign only where all is SAME
verdict() { # verdict STATUS BOOK
    local run=0 sign=0
    [ "$1" -le 2 ] || run=2
    [ "$1" = 0 ] || sign=2
    ends "$run" make run BOOK="$2"
    cp "$work/out" "$work/printed"
    ends "$sign" make sign BOOK="$2"
    cmp -s "$work/printed" "$work/out" || fail 'make sign prints something else'
    ends "$1" bash tools/print-book.sh "$2"
    cmp -s "$work/printed" "$work/out" || fail 'make run prints something else'
}
verdicts() {
    text 'X\nX\n0\n(- X X)\n' && book X "$work/same.book"
    text 'X\nX\n0\nX\n' && book X "$work/parted.book"
    text 'X\nX\n0\nQ\n' && book X "$work/refused.book"
    : > "$work/empty.book"
    verdict 0 "$work/same.book"
    verdict 1 "$work/parted.book"
    verdict 2 crates/printer/stdin
    verdict 3 "$work"
    ends 2 bash tools/print-book.sh "$work/refused.book"
    ends 2 bash tools/print-book.sh "$work/empty.book"
    prints 'BOOK REFUSED 13 0'
    for name in "$work/none.book" /proc/self/mem ''; do ends 3 bash tools/print-book.sh "$name"; done
    ends 3 bash tools/print-book.sh
    ends 2 make sign
    says 'make sign BOOK=file'
    ends 0 make run
    prints 'BOOK 2 3' '0 SAME' '1 DIFF 1 1 1 0' '2 REFUSED E 4 7'
    ends 0 make
    ends 0 make help
}

# ---- what cannot be written or read
unwritten() { # unwritten STATUS COMMAND ..: on a full disk
    local wanted=$1 status=0
    shift
    "$@" > /dev/full 2> "$work/err" || status=$?
    [ "$status" = "$wanted" ] || fail "$* on a full disk: status $status"
    says 'written'
    tried=$((tried + 1))
}
outputs() {
    text 'X\nX\n' && book X "$work/same.book"
    unwritten 3 bash tools/print-book.sh "$work/same.book"
    unwritten 2 make run
    unwritten 2 make sign BOOK="$work/same.book"
    printf 'form\tX\tX\n' > "$work/lines"
    unwritten 3 bash tools/desk.sh < "$work/lines"
    ends 0 make desk < "$work/lines"
    prints 'FORM (POW 1 1 0)'
    ends 2 make desk < "$work"
    says 'not read'
}

# ---- what is said while something is proved, in a small repository of its own
small_repository() { # small_repository FOLDER
    mkdir -p "$1/crates/one/src" "$1/crates/printer/src" "$1/tools"
    cp Makefile "$1"
    cp tools/*.sh "$1/tools"
    printf 'one:\n# and a program\nprinter: one\n' > "$1/crates.txt"
    small_library "$1" 'pub fn one() {}'
}
small_library() { # small_library FOLDER FUNCTION: no other checkout has built it, so that it is proved
    printf '// %s\n#![tactic(auto)]\n\n%s\n' "$1" "$2" > "$1/crates/one/src/lib.rt"
}
small_printer() { # small_printer FOLDER ENTRIES: it says that there are so many, and answers one
    printf 'BOOK 1 %s\n0 SAME\n' "$2" > "$1/crates/printer/stdout"
    cat > "$1/crates/printer/src/main.rt" << END
// $1
#![tactic(auto)]

use std::io;
use std::io::Write;

fn main(rt: HostRuntime) -> io::Result<()> {
    one::one();
    rt.stdout().write_all(b"BOOK 1 $2\n0 SAME\n")
}
END
}
hold_until_waited_for() { # holds the lock of a repository until somebody says that he waits, a minute at most
    : > "$work/err"
    bash "$1/tools/locked.sh" bash -c 'touch "$2"; for turn in $(seq 600); do grep -qs waiting: "$1" && exit; sleep 0.1; done' - \
        "$work/err" "$work/held" &
    for turn in $(seq 600); do [ -e "$work/held" ] && return; sleep 0.1; done
    fail 'the lock could not be had'
}
proving() {
    local small=$work/small book=$PWD/crates/printer/stdin
    small_repository "$small"
    small_printer "$small" 1
    ends 0 make --silent -C "$small" run BOOK="$book"
    prints 'BOOK 1 1' '0 SAME'
    says 'proving the 2 crates of printer'
    says 'proved 1 of 2: one ('
    says 'proved 2 of 2: printer ('
    ends 0 bash "$small/tools/print-book.sh" "$book"
    [ ! -s "$work/err" ] || fail 'something is said though nothing is proved anew'
    small_printer "$small" 2
    hold_until_waited_for "$small"
    ends 3 bash "$small/tools/print-book.sh" "$book"
    says 'waiting: something else is being proved here'
    says 'not whole'
    [ ! -s "$work/out" ] || fail 'half an answer is printed'
    small_library "$small" 'pub fn one() -> u32 {}'
    ends 3 bash "$small/tools/print-book.sh" "$book"
    says 'the printer is not proved'
}

[ $# -gt 0 ] || set -- unmade made verdicts outputs proving
for part in "$@"; do "$part"; done
echo "commands: $tried were tried, and ended and spoke as they should"
