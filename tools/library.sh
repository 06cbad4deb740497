#!/usr/bin/env bash
# library.sh: proves the panel's calls and writes the static library; says where it is, and how a C program is
# compiled with it.
set -euo pipefail
cd "$(dirname "$0")/.."
bash tools/prove.sh panel_c
mkdir -p target/staticlib
cp crates/panel_c/out/libpanel_c.a target/staticlib/libpanel.a.new
mv target/staticlib/libpanel.a.new target/staticlib/libpanel.a
echo 'target/staticlib/libpanel.a (x86-64); a C program is compiled with it so:'
echo '    cc -O2 -I include -o program program.c target/staticlib/libpanel.a'
