#!/usr/bin/env bash
# archive.sh CRATE OUT [TOOLCHAIN]: proves a crate for C and writes its static library, over the libraries below it as rt
# has proved and built them; TOOLCHAIN stands for the kit's own.
set -euo pipefail
cd "$(dirname "$0")/.."
crate=$1
kit=$(dirname "$(rt doc)")
out=$(realpath -m "$2")
words=(--extern "std=$kit/rlibs/std.rlib" -L "dependency=$kit/rlibs")
for library in crates/*/out/rlib; do words+=(-L "dependency=../../$library"); done
for name in $(sed -n "s/^$crate  *staticlib *://p" crates.txt); do words+=(--extern "$name=../$name/out/rlib/$name.rlib"); done
mkdir -p "$(dirname "$out")"
cd "crates/$crate"
exec "$kit/bin/rattle" build --crate-name "$crate" src/lib.rt --crate-type staticlib "${words[@]}" --jobs 2 --backend llvm \
    --antt-project "$kit/rattle/logic/antt-project.json" --logic-built "$kit/logic_built" --toolchain "${3-$kit/toolchain}" -o "$out"
