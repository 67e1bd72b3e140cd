#!/bin/sh
# Runs the program `frames`: on the bundled sample, piped into rig, against its listing; and by frames-program.py on drawn frames, lengths of all kinds, and inputs and
# outputs that are slow or fail: frames-program.sh. Needs rt and python3.
set -eu
root=$(cd "$(dirname "$0")/.." && pwd)
cd "$root"
sh tests/program.sh rig frames
{ printf '\001\004\003\000'; target/bin/frames <samples/arm.frames; printf '\003'; } | target/bin/rig | cmp - samples/arm.listing || { echo "frames: samples/arm.frames make something else" >&2; exit 1; }
python3 -B tests/frames-program.py target/bin/frames target/bin/rig
