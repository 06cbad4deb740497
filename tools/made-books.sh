#!/usr/bin/env bash
# made-books.sh SEED: fresh pairs of terms of the second program's generator, written as people write them (over
# several lines, with comments and blank lines between) and made into books, one for each row; the printer's answers
# are what the second program says of each pair by itself.
set -euo pipefail
cd "$(dirname "$0")/.."
seed=${1:-1}
work=$(mktemp -d)
trap 'rm -rf "$work"' EXIT
cargo build --quiet --release --offline --manifest-path second/Cargo.toml
second=second/target/release/second

# pairs whose parentheses close where they should, in lines that a person could have typed; of each row at most 64, at least 8
"$second" generate "$seed" 20000 > "$work/generated"
LC_ALL=C awk -F '\t' '
    function typed(s,    i, c, depth) {
        if (s !~ /[^ ]/ || s ~ /^ *#/ || s ~ /[^ -~]/ || length(s) > 700) return 0
        for (i = 1; i <= length(s); i++) {
            c = substr(s, i, 1)
            depth += (c == "(") - (c == ")")
            if (depth < 0) return 0
        }
        return depth == 0
    }
    $1 == "compare" && NF == 4 && $2 ~ /^[A-Z]+$/ && typed($3) && typed($4) && count[$2]++ < 64' "$work/generated" > "$work/typed"
awk -F '\t' 'NR == FNR { pairs[$2]++; next } pairs[$2] >= 8' "$work/typed" "$work/typed" > "$work/requests"
"$second" desk < "$work/requests" > "$work/answers"

# for each row ROW.text and ROW.answer; a row that is none is left out
paste "$work/requests" "$work/answers" | LC_ALL=C awk -F '\t' -v work="$work" -v seed="$seed" '
    function write(file, s,    i, c, depth, line) {
        if (rand() < 0.2) print (rand() < 0.5 ? "" : "# entry " count[$2]) > file
        for (i = 1; i <= length(s); i++) {
            c = substr(s, i, 1)
            depth += (c == "(") - (c == ")")
            line = line (c == " " && depth > 0 && rand() < 0.2 ? "\n" : c)
        }
        print line > file
    }
    BEGIN { srand(seed) }
    $5 ~ /neither/ { next }
    {
        write(work "/" $2 ".text", $3)
        write(work "/" $2 ".text", $4)
        sub(/^REFUSED /, "", $5)
        if (split($5, part, " ") == 3 && part[2] ~ /left|right/) $5 = "REFUSED " (part[2] == "left" ? "E " : "C ") part[1] " " part[3]
        print (count[$2]++ + 0) " " $5 > (work "/" $2 ".entries")
    }'

books=0 entries=0
for text in "$work"/*.text; do
    row=$(basename "$text" .text)
    count=$(wc -l < "$work/$row.entries")
    { echo "BOOK ${#row} $count"; cat "$work/$row.entries"; } > "$work/expected"
    bash tools/book.sh "$row" "$text" "$work/$row.book" > "$work/said"
    crates/printer/out/printer < "$work/$row.book" > "$work/answered"
    cmp "$work/expected" "$work/answered" || { echo "made-books.sh: the book of $row is answered otherwise (seed $seed)" >&2; exit 1; }
    books=$((books + 1)) entries=$((entries + count))
done
[ "$books" -ge 10 ]
echo "books: $books with $entries entries were made from text and are answered as each pair is (seed $seed)"
