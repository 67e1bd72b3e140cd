#!/bin/sh
# Compares the library's Pose commands of packed frames with Rust's own conversion, byte by byte, and every number with the exact quotient by whole numbers:
# frames.sh [WORDS] [SEED]. WORDS are the random ones, beside every boundary in every field; where it is `every`, all words of 32 bits take their place, each as a
# translation and as a rotation number. Needs cargo and rt. The program `frames` is run by frames-program.sh.
set -eu
words=${1:-10000000}
[ "$words" != every ] || words=0
case $words${2:-1} in
*[!0-9]*) echo "usage: $0 [WORDS | every] [SEED]" >&2; exit 2 ;;
esac
here=$(cd "$(dirname "$0")" && pwd)
programs=$("$here/build-drivers.sh" frames)
"$programs/frames" "${1:-10000000}" "${2:-1}"
