#!/usr/bin/env bash
# The tests. First what takes a second: the reader's map, docs/STATEMENTS.md, against the crates. Then rt ci, which proves every
# crate from nothing, tries every must-fail edit and runs every program; every edit must be refused because a fact fails, and none be bad. Then, over what rt ci
# leaves in out/: the programs, run; the slips that the exact rows notice, where python3 is at hand; what cargo builds, where it is at hand; and the rows and the comparison
# with the Rust, where its source is, which is looked for in $RUST_SOURCE, or beside the repository in ../shared/docs/src. rt ci's verdict is held back, and is the last line only if all the rest passed.
set -euo pipefail
cd "$(dirname "$0")/.."
log=$(mktemp)
trap 'rm -f "$log"' EXIT

sh tests/statements.sh

rt ci 2>&1 | tee "$log" | sed -u '/^[0-9]* passed, [0-9]* failed$/d' || { grep 'passed, [1-9][0-9]* failed$' "$log" || echo "tests: rt ci failed"; exit 1; }
verdict=$(tail -n 1 "$log")
if grep -qE '^rt: ok.*, [0-9]+ bad' "$log"; then echo "tests: must-fail edits are bad"; exit 1; fi
sh tests/edits.sh "$log"
mkdir -p target/bin
cp crates/rig/out/rig crates/frames/out/frames target/bin/

if command -v python3 >/dev/null 2>&1; then
  sh tests/rig.sh
  sh tests/frames-program.sh
else
  echo "runs of the programs skipped: python3 is not at hand"
fi
if command -v "${CC:-cc}" >/dev/null 2>&1; then
  sh tests/header.sh
else
  echo "headers skipped: no C compiler is at hand"
fi
if command -v python3 >/dev/null 2>&1; then
  python3 tests/stream-rows.py
  python3 tests/slips.py >target/slips.log || { cat target/slips.log; exit 1; }
  tail -n 1 target/slips.log
else
  echo "rows of streams and slips skipped: python3 is not at hand"
fi

source_folder=${RUST_SOURCE:-../shared/docs/src}
if command -v cargo >/dev/null 2>&1; then
  sh tests/roots.sh 200000 1 4096
  sh tests/frames.sh 1000000
  sh tests/bindings.sh >target/bindings.log 2>&1 || { cat target/bindings.log; exit 1; }
  echo "bindings: every export with every refusal, as expected"
  sh tests/averaging.sh
  if [ -d "$source_folder" ]; then
    sh tests/rows.sh "$source_folder"
    sh tests/compare.sh "$source_folder" 20000
    sh tests/fuzz.sh "$source_folder" 20000
  else
    echo "comparison with the Rust skipped: its source is not at hand"
  fi
else
  echo "roots, frames, bindings, averaging and comparison with the Rust skipped: cargo is not at hand"
fi

case $verdict in
*[0-9]' passed, 0 failed') echo "$verdict" ;;
*) echo "tests: rt ci gave no verdict: $verdict"; exit 1 ;;
esac
