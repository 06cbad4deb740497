#!/usr/bin/env bash
# archive.sh FOLDER OUT.so: the panel's calls and the printer of a checkout, as one library for bench. Works on a copy of the checkout, for
# which rt takes what is proved in it; the function that gives the printer to C, below, is proved safe and ending there.
set -euo pipefail
[ $# = 2 ] || { echo 'usage: archive.sh FOLDER OUT.so' >&2; exit 2; }
work=$(mktemp -d)
trap 'rm -rf "$work"' EXIT
tar -C "$1" --exclude=.git --exclude=out --exclude=target -cf - . | tar -C "$work" -xf -
mkdir -p "$work/crates/bench_book/src"
cat > "$work/crates/bench_book/src/lib.rt" << 'END'
// For bench.c alone: the printer's answer to a book, from C.
#![tactic(auto)]

// How many bytes were written, or the refusal's number.
#[repr(C)]
#[derive(Drop)]
pub struct BenchAnswer {
    pub length: usize,
    pub refused: u32,
}

#[unsafe(no_mangle)]
pub extern "C" fn bench_print(
    book: &[u8],
    out: &mut [u8],
    a: &mut [u32],
    b: &mut [u32],
    c: &mut [u32],
    d: &mut [u32],
) -> BenchAnswer {
    let answer = book_print::print_book(book, out, a, b, c, d);
    match answer {
        Ok(length) => BenchAnswer { length, refused: 0 },
        Err(bad) => BenchAnswer {
            length: 0,
            refused: bad.number,
        },
    }
}
END
echo 'bench_book staticlib: book_print reply refusal' >> "$work/crates.txt"
for crate in panel_c bench_book; do
    (cd "$work/crates/$crate" && rt lib > said 2>&1) || { tail -n 30 "$work/crates/$crate/said" >&2; exit 1; }
done
cc -shared -o "$2" -Wl,--whole-archive "$work/crates/panel_c/out/libpanel_c.a" "$work/crates/bench_book/out/libbench_book.a" \
    -Wl,--no-whole-archive
