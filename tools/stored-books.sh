#!/usr/bin/env bash
# stored-books.sh: the printer's answer to every stored book (books/NAME.book) is the stored one (books/NAME.answer), byte for byte.
set -euo pipefail
cd "$(dirname "$0")/.."
work=$(mktemp -d)
trap 'rm -rf "$work"' EXIT
count=0
for book in books/*.book; do
    crates/printer/out/printer < "$book" > "$work/answered"
    cmp "${book%.book}.answer" "$work/answered" || { echo "stored-books.sh: $book is answered otherwise" >&2; exit 1; }
    count=$((count + 1))
done
[ "$count" -gt 0 ]
echo "printer: $count stored books are answered as stored"
