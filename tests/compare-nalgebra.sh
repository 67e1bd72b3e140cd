#!/bin/sh
# The comparison of compare.sh over the real nalgebra: compare-nalgebra.sh SOURCE_FOLDER [GRIDS] [SEED].
# cargo fetches nalgebra, so this needs a registry within reach, or NALGEBRA set to a copy: NALGEBRA='{ path = "/a/copy" }'. The version is
# the one that SOURCE_FOLDER's repository builds with; name it where it is not the one below: NALGEBRA='"0.33"'.
set -eu
here=$(cd "$(dirname "$0")" && pwd)
[ $# -ge 1 ] || { echo "usage: $0 SOURCE_FOLDER [GRIDS] [SEED]" >&2; exit 2; }
NALGEBRA=${NALGEBRA:-'"0.34"'}
export NALGEBRA
programs=$("$here/build-drivers.sh" compare "$1")
"$programs/compare" "${2:-100000}" "${3:-1}"
