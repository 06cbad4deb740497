#!/usr/bin/env bash
# book.sh ROW FILE OUT: builds the book maker (tools/makebook) and makes the book. OUT is as it was where the status
# is not 0.
set -euo pipefail
maker=$(dirname "$0")/makebook
cargo build --quiet --release --offline --manifest-path "$maker/Cargo.toml"
exec "$maker/target/release/makebook" "$@"
