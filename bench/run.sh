#!/bin/sh
# Times the library and the Rust it was carried over from, both in release, on the same inputs in one run: run.sh SOURCE_FOLDER [ROUNDS].
# Prints for each piece of work both times and their ratio, with its spread. SOURCE_FOLDER is as for tests/compare.sh. Needs cargo
# and rt. A time measured under an emulator, as on Arm, says nothing.
set -eu
root=$(cd "$(dirname "$0")/.." && pwd)
[ $# -ge 1 ] || { echo "usage: $0 SOURCE_FOLDER [ROUNDS]" >&2; exit 2; }
programs=$("$root/tests/build-drivers.sh" bench "$1")
"$programs/bench" "${2:-201}"
