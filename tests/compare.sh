#!/bin/sh
# Compares libplacer.a with the Rust it was carried over from, on random grids and lists of poses: compare.sh SOURCE_FOLDER [GRIDS] [SEED].
# SOURCE_FOLDER has crates/vision-calibration-linear/src/extrinsics.rs, which is built unchanged. Beneath it stands not nalgebra but what
# tests/rust/nalgebra writes from document 01's reading; compare-nalgebra.sh builds the real one. Needs cargo and rt.
set -eu
here=$(cd "$(dirname "$0")" && pwd)
[ $# -ge 1 ] || { echo "usage: $0 SOURCE_FOLDER [GRIDS] [SEED]" >&2; exit 2; }
programs=$("$here/build-drivers.sh" compare "$1")
"$programs/compare" "${2:-100000}" "${3:-1}"
