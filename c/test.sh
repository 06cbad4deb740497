#!/usr/bin/env bash
# Links the panel's static library (x86-64) with C and C++ programs and runs them: C by cc, C++ by the kit's clang and
# rattle-link, so that no C++ compiler is needed.
set -euo pipefail
cd "$(dirname "$0")"
kit=$(dirname "$(rt doc)")
library=../target/staticlib/libpanel.a
version=$(sed -n 's/^#define PANEL_VERSION "\(.*\)"$/\1/p' ../include/panel.h)
work=$(mktemp -d)
trap 'rm -rf "$work"' EXIT

fail() {
    echo "c/test.sh: $*" >&2
    exit 1
}

compile() { # compile SOURCE OBJECT WORDS: by the kit's clang
    # it has no headers of its own: those of the machine's compiler and C library serve
    local headers=(-isystem "$(cc -print-file-name=include)" -isystem "/usr/include/$(uname -m)-linux-gnu" -I ../include)
    "$kit/toolchain/bin/clang" --target=x86_64-linux-gnu -O2 -fPIE -Wall -Wextra -Werror "${headers[@]}" "${@:3}" -c "$1" -o "$2"
}

link() { # link OBJECT PROGRAM
    "$kit/bin/rattle-link" --target x86_64-unknown-linux-gnu --toolchain "$kit/toolchain" -o "$2" "$1" "$library" > "$work/said" 2>&1 ||
        fail "$(cat "$work/said")"
}

build() { # build NAME: NAME.c to $work/NAME
    cc -O2 -Wall -Wextra -Werror -o "$work/$1" "$1.c" "$library"
}

ends() { # ends STATUS LINE PROGRAM WORDS: what it prints and how it ends
    local status=0 line
    line=$("${@:3}" 2> "$work/said") || status=$?
    [ "$status" = "$1" ] && [ "$line" = "$2" ] || fail "${*:3}: status $status, $line; expected $1, $2"
}

expect() { # expect STATUS LINE ROW LEFT RIGHT: the verdict on two formulas
    printf '%s\n' "$4" > "$work/left"
    printf '%s\n' "$5" > "$work/right"
    ends "$1" "$2" "$work/verdict" "$3" "$work/left" "$work/right"
}

unwritten() { # unwritten PROGRAM WORDS: a full disk is status 3, and said
    local status=0
    "$@" > /dev/full 2> "$work/said" || status=$?
    [ "$status" = 3 ] && grep -q 'was not written' "$work/said" || fail "$* on a full disk: status $status"
}

example() { # example STATUS LINE: the program in README, compiled by the line that `make lib` prints; README says what it prints
    awk '/^```c$/ { inside = 1; next } /^```$/ { inside = 0 } inside' ../README.md > "$work/program.c"
    ln -s "$PWD/../include" "$PWD/../target" "$work"
    (cd "$work" && eval "$(sed -n 's/^    cc /cc -Wall -Wextra -Werror /p' lib.out)")
    ends "$1" "$2" "$work/program"
    grep -qF "\`$2\`" ../README.md || fail 'README says otherwise what its program prints'
}

unset MAKEFLAGS MFLAGS MAKELEVEL
make --silent -C .. lib > "$work/lib.out" 2> "$work/lib.err" || { cat "$work/lib.err" >&2; exit 1; }
build calls
build verdict
"$work/calls" | diff calls.out -
expect 0 'SAME' XY '(* (+ X Y) (- X Y))' '(- (EXPT X 2) (EXPT Y 2))'
expect 1 'DIFF 1 1 1 0' XY '(* X Y)' '0'
expect 2 'REFUSED 4 left 7' XY '(+ X Y Z)' '1'
expect 2 'REFUSED 5 right 0' X 'X' 'Q'
expect 2 'REFUSED 1 neither 0' XX 'X' 'X'
expect 1 'DIFF 2 4 2' X '(EXPT X 2)' 'X'
expect 2 'REFUSED 3 left 0' X "$(printf '%4096s' 1)" '1'
expect 0 'SAME' X "$(printf '%4095s' 1)" '1'
ends 3 '' "$work/verdict" X "$work" "$work/right"
ends 3 '' "$work/verdict" X "$work/left" "$work/none"
ends 3 '' "$work/verdict" X "$work/left"
for program in verdict calls; do
    ends 0 "$program $version" "$work/$program" --version
    "$work/$program" --help > "$work/help"
    grep -q "^$program " "$work/help" || fail "$program --help"
    unwritten "$work/$program" --help
done
unwritten "$work/calls"
unwritten "$work/verdict" X "$work/left" "$work/right"
example 1 'different at X = 0, Y = 1: remainders 2147483646 and 0'
compile linked.cpp "$work/linked.o" -x c++ -fno-exceptions
link "$work/linked.o" "$work/linked"
ends 0 'SAME' "$work/linked"
echo 'c: the panel library links from C and C++, and answers'
