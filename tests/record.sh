#!/bin/sh
# Records the sample that the program crates/test_replay replays in the gate: record.sh SOURCE_FOLDER. Needs what compare.sh needs.
set -eu
root=$(cd "$(dirname "$0")/.." && pwd)
[ $# -eq 1 ] || { echo "usage: $0 SOURCE_FOLDER" >&2; exit 2; }
programs=$("$root/tests/build-drivers.sh" record "$1")
"$programs/record" "$root/crates/test_replay/stdin" "$root/crates/test_replay/stdout"
ls -l "$root/crates/test_replay/stdin" "$root/crates/test_replay/stdout"
