#!/bin/sh
# Reads what rt ci said of the must-fail edits: edits.sh LOG. Each must be refused because a fact fails: not first in specs/, where definitions stand and
# nothing is proved, nor without a word of why, as where the checker does not cover what the edit makes, nor because a name is not in scope, nor only
# because a proof file names what the edit took away, nor only by a limit of the prover.
set -eu
cd "$(dirname "$0")/.."
[ $# -eq 1 ] || { echo "usage: $0 LOG" >&2; exit 2; }
edits=0
wrong=0
unsure=0
say() { echo "edits: $*"; wrong=1; }
for edit in crates/*/must-fail/*.edit; do
  crate=${edit#crates/}
  crate=${crate%%/*}
  name=$crate/$(basename "$edit")
  edits=$((edits + 1))
  told=$(grep -F "must-fail $name: refused, as it must be" "$1" | head -n 1) || true
  case $told in *'gave up at one of its limits'*) unsure=$((unsure + 1)) ;; esac
  case $told in
  '') say "$name was not refused" ;;
  *'as it must be') say "$name is refused without a word of why" ;;
  *'as it must be (only '*) say "$name: ${told#*refused, as it must be }" ;;
  *'as it must be: specs/'* | *'as it must be: ./specs/'*) say "$name is refused in specs/: ${told#*refused, as it must be: }" ;;
  *'is not in scope'*) say "$name is refused because a name is not in scope" ;;
  esac
done
[ "$wrong" -eq 0 ] && echo "edits: all $edits must-fail edits are refused, none of them first in specs/, for a name that is not in scope or by a limit of the prover; of $unsure the search left the goal at a limit of its own, which says less"
exit "$wrong"
