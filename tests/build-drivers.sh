#!/bin/sh
# Builds a driver of tests/rust or of bench/ against libplacer.a and libtest_probe.a of target/staticlib, and prints the folder that it is then
# in: build-drivers.sh DRIVER [SOURCE_FOLDER].
# From SOURCE_FOLDER extrinsics.rs is taken unchanged; it is copied to target/, which is never committed.
# NALGEBRA, where it is set, is the real nalgebra as Cargo.toml would name it, as in NALGEBRA='"0.34"'; otherwise the stand-in is built.
set -eu
[ $# -ge 1 ] || { echo "usage: $0 DRIVER [SOURCE_FOLDER]" >&2; exit 2; }
root=$(cd "$(dirname "$0")/.." && pwd)
command -v cargo >/dev/null || { echo "no cargo on this machine" >&2; exit 2; }
sh "$root/tests/library.sh" placer
sh "$root/tests/library.sh" test_probe
extrinsics=
if [ $# -ge 2 ]; then
    extrinsics=$(find "$2" -name extrinsics.rs -path '*vision-calibration-linear*' | head -n 1)
    [ -n "$extrinsics" ] || { echo "no vision-calibration-linear/src/extrinsics.rs below $2" >&2; exit 2; }
fi

build=$root/target/drivers${NALGEBRA:+-nalgebra}
new=$build/new
rm -rf "$new"
mkdir -p "$new/bindings" "$new/tests" "$build/src"
cp -R "$root/bindings/rust" "$new/bindings/rust"
cp -R "$root/tests/rust" "$new/tests/rust"
cp -R "$root/bench" "$new/bench"
[ -z "$extrinsics" ] || cp "$extrinsics" "$new/tests/rust/vision-calibration-linear/src/extrinsics.rs"
offline=--offline
if [ -n "${NALGEBRA:-}" ]; then
    offline=
    rm -rf "$new/tests/rust/nalgebra"
    for file in "$new"/tests/rust/*/Cargo.toml "$new/tests/rust/Cargo.toml" "$new/bench/Cargo.toml"; do
        sed -e "s|^nalgebra = .*|nalgebra = $NALGEBRA|" -e 's|"nalgebra", ||' "$file" >"$file.new"
        mv "$file.new" "$file"
    done
fi

# Only what differs takes the place of what was built before, so that cargo, which goes by times, builds just that anew.
(cd "$new" && find . -type f) | while IFS= read -r file; do
    cmp -s "$new/$file" "$build/src/$file" || { mkdir -p "$build/src/$(dirname "$file")" && cp "$new/$file" "$build/src/$file"; }
done
(cd "$build/src" && find . -type f ! -name Cargo.lock) | while IFS= read -r file; do
    [ -f "$new/$file" ] || rm "$build/src/$file"
done

cd "$build/src/tests/rust"
# shellcheck disable=SC2086
PLACER_LIB="$root/target/staticlib" CARGO_TARGET_DIR="$build/out" cargo build --quiet --release $offline --bin "$1" >&2
echo "$build/out/release"
