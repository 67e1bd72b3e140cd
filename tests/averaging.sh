#!/bin/sh
# Calls the averaging entry's export from Rust, and from C through include/placer.h: averaging.sh. Needs rustc, a C compiler and rt.
set -eu
root=$(cd "$(dirname "$0")/.." && pwd)
sh "$root/tests/library.sh" placer
mkdir -p "$root/target/drivers"
rustc --edition 2021 -O -o "$root/target/drivers/averaging" -L "$root/target/staticlib" -l static=placer "$root/tests/averaging.rs"
"$root/target/drivers/averaging"
"${CC:-cc}" -std=c11 -Wall -Wextra -Werror -O2 -I "$root/include" "$root/tests/averaging.c" "$root/target/staticlib/libplacer.a" -o "$root/target/drivers/averaging-c"
"$root/target/drivers/averaging-c"
