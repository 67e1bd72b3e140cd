#!/bin/sh
# Builds the Rust wrapper and runs its tests, which call every export with every refusal: bindings.sh. Needs cargo and rt.
set -eu
root=$(cd "$(dirname "$0")/.." && pwd)
sh "$root/tests/library.sh" placer
CARGO_TARGET_DIR="$root/target/bindings" cargo test --quiet --offline --manifest-path "$root/bindings/rust/Cargo.toml"
