#!/bin/sh
# Compares the library's square root with the machine's own: roots.sh [PATTERNS] [SEED] [SQUARES]. Needs cargo and rt.
# PATTERNS are the random ones, beside every exponent, every perfect square (up to SQUARES, where it is given) and the hardest midpoints.
set -eu
here=$(cd "$(dirname "$0")" && pwd)
programs=$("$here/build-drivers.sh" roots)
"$programs/roots" "${1:-20000000}" "${2:-1}" ${3:+"$3"}
