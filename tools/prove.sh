#!/usr/bin/env bash
# prove.sh [--passed FILE] CRATE ..: proves and builds the crates, each a program or a static library, and all that they
# rest on; what is built is crates/NAME/out/NAME, or libNAME.a there. Standard error is told what is proved, of how many, as
# it goes on; where nothing is new it is told nothing. Status: 0 all proved; 1 not, and the end of what rt said is told too.
# --passed: rt ci has proved all since FILE was written, and what it left is taken.
set -euo pipefail
cd "$(dirname "$0")/.."
# what prove.sh is given to read is not for rt, nor for a program that rt runs
exec < /dev/null
say() { printf '%s\n' "$*" >&2; }
since=
[ "${1-}" != --passed ] || { since=$2 && shift 2; }

crates_below() { # crates_below NAME: it and those of crates.txt that it rests on, a line each, in the order in which rt proves them
    awk -F: -v wanted="$1" '
        function visit(name,    part, n, k) {
            if (name in seen || !(name in below)) return
            seen[name] = 1
            n = split(below[name], part, " ")
            for (k = 1; k <= n; k++) visit(part[k])
            print name
        }
        { sub(/#.*/, "") }
        NF == 2 { split($1, word, " "); below[word[1]] = $2 }
        END { visit(wanted) }' crates.txt
}
is_static() { grep -q "^$1  *staticlib *:" crates.txt; }
built() { if is_static "$1"; then echo "crates/$1/out/lib$1.a"; else echo "crates/$1/out/$1"; fi; }

# ---- what is proved is on record: the sum of all that it rests on, and that of what was built
sources() { # sources NAME
    local crates
    crates=$(crates_below "$1")
    {
        rt version
        grep -xE "($(paste -sd '|' <<< "$crates")) *(staticlib *)?:.*" crates.txt
        find $(sed 's|^|crates/|' <<< "$crates") -regex 'crates/[^/]*/out' -prune -o -type f -regex '.*\.\(rt\|antt\)' -print0 |
            LC_ALL=C sort -z | xargs -0 sha256sum
    } | sha256sum
}
on_record() { cmp -s "target/proved/$1" <(sources "$1" && sha256sum "$(built "$1")" 2> /dev/null); }
record() { # record NAME SOURCES
    mkdir -p target/proved
    { printf '%s\n' "$2" && sha256sum "$(built "$1")"; } > "target/proved/$1.new"
    mv "target/proved/$1.new" "target/proved/$1"
}

tell() { # tell NAME ..: of rt's lines what people want to know; the names are all, in the order of rt's work
    local line crate='' began=0 k
    while IFS= read -r line; do
        case $line in
        'rt: chose --jobs '*' for '*) crate=${line##* } began=$SECONDS ;;
        'logic=proved '*)
            for ((k = 1; k <= $#; k++)); do
                [ "${!k}" != "$crate" ] || say "proved $k of $#: $crate ($((SECONDS - began)) s)"
            done
            crate=
            ;;
        'waiting: '* | 'rt: '*'waiting for '*) say 'waiting: something else is being proved here' ;;
        esac
    done
}

prove() { # prove NAME
    local crates crate before
    crates=$(crates_below "$1")
    before=$(sources "$1")
    for crate in $crates; do
        [ -e "crates/$crate/out/rlib/stamp" ] || { [ "$crate" = "$1" ] && [ -e "target/proved/$1" ]; } && continue
        say "proving the $(wc -l <<< "$crates") crates of $1; from nothing this takes some minutes"
        break
    done
    # rt runs a program that it has built, and then speaks on standard error: what the program prints is let go
    (
        cd "crates/$1"
        if [ -e src/main.rt ]; then bash ../../tools/locked.sh rt run 2>&1 > /dev/null; else bash ../../tools/locked.sh rt lib 2>&1; fi
    ) | tee "$log" | tell $crates || { tail -n 20 "$log" >&2; return 1; }
    [ "$before" != "$(sources "$1")" ] || record "$1" "$before"
}

passed() { # passed NAME: what rt ci left is on record; a static library it proves and does not build
    local crate before
    before=$(sources "$1")
    if is_static "$1"; then
        # what stood in a checkout before, it puts back: libraries of rt's other commands, which have a stamp
        for crate in $(crates_below "$1"); do [ ! -e "crates/$crate/out/rlib/stamp" ] || return 1; done
        bash tools/locked.sh bash tools/archive.sh "$1" "$(built "$1")" > "$log" 2>&1 || { tail -n 20 "$log" >&2; return 1; }
    fi
    # what was changed meanwhile, rt ci may not have read
    [ -z "$(find crates.txt crates -newer "$since" -not -path 'crates/*/out/*' -regex '.*\.\(txt\|rt\|antt\)')" ] || return 1
    record "$1" "$before"
}

command -v rt > /dev/null || { say 'prove.sh: rt, the Rattle kit, is not on the path'; exit 1; }
log=$(mktemp)
trap 'rm -f "$log"' EXIT
for name; do
    on_record "$name" && continue
    [ -z "$since" ] || ! passed "$name" || continue
    prove "$name" || exit 1
done
