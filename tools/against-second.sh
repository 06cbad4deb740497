#!/usr/bin/env bash
# against-second.sh SEED COUNT: COUNT fresh request lines of the second program's generator through the desk and through
# the second program; every byte is compared. So are the stored output of the trials and 200 fresh books.
set -euo pipefail
cd "$(dirname "$0")/.."
seed=${1:-1} count=${2:-10000}
work=$(mktemp -d)
trap 'rm -rf "$work"' EXIT
cargo build --quiet --release --offline --manifest-path second/Cargo.toml
second=second/target/release/second
"$second" trials | cmp - crates/trials/stdout || { echo "the trials' stored output is not the second program's" >&2; exit 1; }
"$second" generate "$seed" "$count" > "$work/lines"
"$second" desk < "$work/lines" > "$work/expected"
crates/desk/out/desk < "$work/lines" > "$work/answered"
cmp "$work/expected" "$work/answered" || {
    diff "$work/expected" "$work/answered" | head -n 4 | cut -c 1-300
    exit 1
}
mkdir "$work/books"
"$second" books "$seed" 200 "$work/books"
for book in "$work"/books/*; do
    "$second" book < "$book" > "$work/expected"
    crates/printer/out/printer < "$book" > "$work/answered"
    cmp "$work/expected" "$work/answered" || { echo "a book's answers differ" >&2; exit 1; }
done
echo "printer: $(ls "$work/books" | wc -l) books are answered as by the second program (seed $seed)"
echo "desk: $count answers are the second program's (seed $seed)"
