#!/bin/sh
# Holds the exact rows of the crates to the Rust: rows.sh SOURCE_FOLDER. Every pose and every answer that stands, as bits, in a Rows.antt, in
# GridRow.antt or in OtherGrids.antt is compared with what the driver `rows` prints. SOURCE_FOLDER has
# crates/vision-calibration-linear/src/extrinsics.rs, which is built unchanged; beneath it stands not nalgebra but what tests/rust/nalgebra
# writes from document 01's reading, unless NALGEBRA names the real one, as for build-drivers.sh. Needs cargo and rt.
set -eu
root=$(cd "$(dirname "$0")/.." && pwd)
[ $# -eq 1 ] || { echo "usage: $0 SOURCE_FOLDER" >&2; exit 2; }
programs=$("$root/tests/build-drivers.sh" rows "$1")
mkdir -p "$root/target"
"$programs/rows" | LC_ALL=C sort >"$root/target/rows.rust"
# The name of each definition, and the numbers of 16 digits in it, up to the next blank line.
for file in arithmetic/specs/Rows.antt mean/specs/Rows.antt claims_cases/specs/GridRow.antt claims_cases/specs/OtherGrids.antt; do cat "$root/crates/$file"; echo; done |
    awk '
        /^[A-Za-z][A-Za-z0-9_]* =/ { name = $1 }
        /^$/ { if (name != "" && numbers != "") print name numbers; name = ""; numbers = "" }
        name != "" { line = $0; while (match(line, /0x[0-9a-f_]+/)) { word = substr(line, RSTART + 2, RLENGTH - 2); gsub(/_/, "", word); numbers = numbers " " word; line = substr(line, RSTART + RLENGTH) } }
    ' | LC_ALL=C sort >"$root/target/rows.crates"
if ! diff "$root/target/rows.rust" "$root/target/rows.crates"; then
    echo "rows: what the Rust computes (<) is not what stands in the crates (>)"
    exit 1
fi
echo "rows: $(wc -l <"$root/target/rows.crates") poses and answers, as the Rust has them"
