#!/bin/sh
# Holds docs/STATEMENTS.md to the repository: every name that it gives in backticks is found in the crates, every file that it names is there,
# every must-fail edit is named and every edit named is there, the lines to believe are those that the papers quote, and the conditions on callers are those of the code.
set -eu
cd "$(dirname "$0")/.."
map=docs/STATEMENTS.md
wrong=0
there() { for one in "$@"; do [ -e "$one" ] && return 0; done; return 1; }
say() { echo "statements: $*"; wrong=1; }
for edit in crates/*/must-fail/*.edit; do
  grep -qw "$(basename "$edit" .edit)" "$map" || say "$edit is not named"
done
for edit in $(sed -n 's/.*|\([^|]*\)|$/\1/p' "$map" | sed 's/`[^`]*`//g' | grep -oE '\b[a-z0-9]+(_[a-z0-9]+)+\b' | sort -u); do
  there crates/*/must-fail/"$edit".edit || say "no edit is called $edit"
done
for name in $(grep -o '`[^` ]*`' "$map" | tr -d '`' | sort -u); do
  case $name in
  --*) ;;
  */*) there "$name" "crates/$name" crates/*/"$name" crates/*/proofs/"$name" || say "no $name" ;;
  *.antt | *.rt) [ -n "$(find crates -name "$name")" ] || say "no file $name" ;;
  *) there "crates/$name" || grep -rqF --include='*.rt' --include='*.antt' -e "${name#*::}" crates || say "nothing is called $name" ;;
  esac
done
if command -v python3 >/dev/null 2>&1; then
  told=$(python3 tests/believe.py) || say "$told"
  believe=$(echo "$told" | tail -n 1)
  for paper in README.md "$map"; do
    grep -qF "$believe" "$paper" || say "$paper does not say '$believe'"
  done
  python3 tests/conditions.py || wrong=1
fi
[ "$wrong" -eq 0 ] && echo "statements: every name and file of $map is there, and every must-fail edit is named"
exit "$wrong"
