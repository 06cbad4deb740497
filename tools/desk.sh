#!/usr/bin/env bash
# desk.sh: proves and builds the desk, then answers each line of standard input with a line. Status: 0 every line read
# was answered; 3 not proved, not read, or not written.
set -uo pipefail
tools=$(dirname "$0")
none() {
    printf 'desk.sh: %s\n' "$*" >&2
    exit 3
}
bash "$tools/prove.sh" desk || none 'the desk is not proved'
[ -t 0 ] && printf 'a request on each line, its fields parted by tabs (README, "The desk"); control-D ends\n' >&2
# No contract says what a file or a disk gives and takes: what stands before and behind the desk fails where one of these does.
cat | "$tools/../crates/desk/out/desk" | cat || none 'a line was not read, answered or written'
