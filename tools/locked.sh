#!/usr/bin/env bash
# locked.sh COMMAND ..: runs a command of rt when no other one runs in this repository: two at once would spoil each
# other's record of what is proved.
set -euo pipefail
exec 9< "$(dirname "$0")/../crates.txt"
flock --timeout 2 9 || {
    echo 'waiting: something else is being proved here' >&2
    flock 9
}
exec "$@"
