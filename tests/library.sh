#!/bin/sh
# Makes target/staticlib/libNAME.a, unless it is there and newer than every source: library.sh NAME, for placer or test_probe. Needs rt.
set -eu
root=$(cd "$(dirname "$0")/.." && pwd)
[ $# -eq 1 ] || { echo "usage: $0 NAME" >&2; exit 2; }
archive=$root/target/staticlib/lib$1.a
if [ -f "$archive" ] && [ -z "$(find "$root/crates.txt" "$root/crates" -name out -prune -o -type f \( -name crates.txt -o -name '*.rt' -o -name '*.antt' \) -newer "$archive" -print | head -n 1)" ]; then
    exit 0
fi
command -v rt >/dev/null || { echo "no $archive, and no rt to make it" >&2; exit 2; }
# A crate is a library or a static library: the exports of placer stand in placer_c.
case $1 in placer) crate=placer_c ;; *) crate=$1 ;; esac
echo "making $(basename "$archive"): proving $crate and what it rests on" >&2
mkdir -p "$root/target/staticlib"
(cd "$root/crates/$crate" && rt lib) >"$root/target/lib$1.log" 2>&1 || { tail -n 20 "$root/target/lib$1.log" >&2; exit 1; }
cp "$root/crates/$crate/out/lib$crate.a" "$archive"
