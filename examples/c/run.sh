#!/bin/sh
# Builds the example in C and runs it on a stream, tests/corpus/line-of-four.stream where none is named: run.sh [STREAM].
# Needs a C compiler and rt.
set -eu
root=$(cd "$(dirname "$0")/../.." && pwd)
sh "$root/tests/library.sh" placer
mkdir -p "$root/target/examples"
"${CC:-cc}" -std=c11 -Wall -Wextra -Werror -O2 -I "$root/include" "$root/examples/c/rig.c" "$root/target/staticlib/libplacer.a" -o "$root/target/examples/rig"
"$root/target/examples/rig" <"${1:-$root/tests/corpus/line-of-four.stream}"
