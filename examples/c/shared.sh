#!/bin/sh
# Builds the example in C that shows which cameras share too few views, and runs it on a stream: shared.sh [FEWEST [STREAM]]. Where none is named it is
# samples/pairs.stream, and two views. Needs a C compiler and rt.
set -eu
root=$(cd "$(dirname "$0")/../.." && pwd)
sh "$root/tests/library.sh" placer
mkdir -p "$root/target/examples"
"${CC:-cc}" -std=c11 -Wall -Wextra -Werror -O2 -I "$root/include" "$root/examples/c/shared.c" "$root/target/staticlib/libplacer.a" -o "$root/target/examples/shared"
"$root/target/examples/shared" "${1:-2}" <"${2:-$root/samples/pairs.stream}"
