#!/bin/sh
# Compares the library with the papers' stream, and the Rust under Solve, over damaged streams: fuzz.sh SOURCE_FOLDER [STREAMS] [SEED].
# The streams of tests/corpus and random ones are damaged, and after every call its answer and all lent memory are compared, bit by bit but for a NaN
# that a Solve wrote, and so all 256 shared counts. Beside the calls records with false counts are handed in, and cameras are asked for; the last line says how
# many. From 20,000 streams on every refusal must come up, of the query too, and rigs solved after poses were taken back. Needs what compare.sh needs.
set -eu
here=$(cd "$(dirname "$0")" && pwd)
[ $# -ge 1 ] || { echo "usage: $0 SOURCE_FOLDER [STREAMS] [SEED]" >&2; exit 2; }
programs=$("$here/build-drivers.sh" fuzz "$1")
"$programs/fuzz" "${2:-1000000}" "${3:-1}" "$here/corpus"
