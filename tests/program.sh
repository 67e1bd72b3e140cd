#!/bin/sh
# Makes target/bin/NAME for each NAME, unless it is there and newer than every source: program.sh NAME... What a run of rt ci left in crates/NAME/out is taken where it is newer. Needs rt.
set -eu
root=$(cd "$(dirname "$0")/.." && pwd)
[ $# -ge 1 ] || { echo "usage: $0 NAME..." >&2; exit 2; }
mkdir -p "$root/target/bin"
fresh() { [ -x "$1" ] && [ -z "$(find "$root/crates.txt" "$root/crates" -name out -prune -o -type f \( -name crates.txt -o -name '*.rt' -o -name '*.antt' \) -newer "$1" -print | head -n 1)" ]; }
for name in "$@"; do
    program=$root/target/bin/$name
    made=$root/crates/$name/out/$name
    fresh "$program" && continue
    if ! fresh "$made"; then
        echo "making $name: proving it and what it rests on; from nothing that takes some minutes" >&2
        (cd "$root/crates/$name" && rt run </dev/null) >"$root/target/$name.log" 2>&1 || true
        [ -x "$made" ] || { tail -n 20 "$root/target/$name.log" >&2; exit 1; }
    fi
    cp "$made" "$program"
done
