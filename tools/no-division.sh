#!/usr/bin/env bash
# no-division.sh: that the archive for C holds no division (request 104). The archive is made once more, by the kit with
# a clang that also keeps the module it is handed: the archive is looked through for instructions and routines that
# divide, and so is what the module becomes on a 32-bit processor, where a division of 64 bits is a routine.
set -euo pipefail
cd "$(dirname "$0")/.."
work=$(mktemp -d)
trap 'rm -rf "$work"' EXIT
fail() {
    echo "no-division.sh: $*" >&2
    exit 1
}
toolchain=$(dirname "$(rt doc)")/toolchain
library=crates/panel_c/out/libpanel_c.a

all_but() { # all_but NAME FOLDER: in a folder of our own what the kit's toolchain has, but for NAME
    mkdir -p "$work/toolchain/$2"
    local entry
    for entry in "$toolchain/$2"/*; do [ "${entry##*/}" = "$1" ] || ln -s "$entry" "$work/toolchain/$2"; done
}
all_but bin .
all_but clang bin
cat > "$work/toolchain/bin/clang" << END
#!/bin/sh
for word; do case \$word in *.bc) cp "\$word" "$work/module.bc" ;; esac; done
exec "$toolchain/bin/clang" "\$@"
END
chmod 755 "$work/toolchain/bin/clang"
bash tools/prove.sh panel_c
bash tools/locked.sh bash tools/archive.sh panel_c "$work/again.a" "$work/toolchain" > "$work/said" 2>&1 ||
    { cat "$work/said" >&2; exit 1; }
[ -s "$work/module.bc" ] || fail 'the kit handed its clang no module'
cmp "$work/again.a" "$library" || fail 'the archive made once more is another one'

# divides_nowhere NAME LISTING ROUTINES: no instruction divides; routines move memory and set it, and no other is called
divides_nowhere() {
    local other
    [ "$(wc -l < "$2")" -gt 1000 ] || fail "$1: no listing"
    ! grep -E '\<i?div[bwlq]?\>' "$2" >&2 || fail "$1 divides"
    [ -s "$3" ] || fail "$1: no list of what it calls"
    other=$(sort -u "$3" | grep -vxE 'memmove|memset' | tr '\n' ' ') || true
    [ -z "$other" ] || fail "$1 calls $other"
}
objdump -d "$library" > "$work/archive"
nm -u "$library" | awk '$1 == "U" { print $2 }' > "$work/asked"
divides_nowhere "$library" "$work/archive" "$work/asked"
"$toolchain/bin/clang" --target=i686-linux-gnu -Wno-override-module -O3 -S -x ir "$work/module.bc" -o "$work/i686.s"
grep -oE '\<[A-Za-z_0-9]+@PLT' "$work/i686.s" | sed 's/@PLT$//' > "$work/called"
divides_nowhere 'what the calls from C are on a 32-bit processor' "$work/i686.s" "$work/called"
echo 'no division: the archive, and what the calls from C are on a 32-bit processor; memmove and memset are all that they call'
