#!/usr/bin/env bash
# Runs rig on the bundled streams: document 01's listing, a rig of five cameras, the same with a bumped target that is taken back and sent again, three
# cameras of which each two share two views in the end, and a stream of refusals; then on packed frames of the arm controller, which the program frames makes into
# commands. Proves and builds both first, unless they are there and newer than every source.
set -eu
cd "$(dirname "$0")/.."
sh tests/program.sh rig frames
for name in listing five_cameras bumped pairs refused; do
  echo "== samples/$name.stream"
  target/bin/rig <samples/$name.stream
done
# Four views of three cameras, the reference 0, then the frames, then Solve.
echo "== samples/arm.frames"
{ printf '\001\004\003\000'; target/bin/frames <samples/arm.frames; printf '\003'; } | target/bin/rig
