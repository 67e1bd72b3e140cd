#!/bin/sh
# Runs the program: on the bundled samples, against their listings; on 65,536 bytes and on one more; where there is a C compiler, on a stream of
# the corpus against the example in C, which is run on the sample with a pose taken back too, and the example that shows which cameras share too few views,
# against the tables beside its sample; and by rig.py on drawn streams, the largest rig, and inputs and outputs that are slow or fail: rig.sh. Needs rt and
# python3.
set -eu
root=$(cd "$(dirname "$0")/.." && pwd)
cd "$root"
sh tests/program.sh rig
work=$(mktemp -d)
trap 'rm -rf "$work"' EXIT

for name in listing five_cameras bumped pairs refused; do
  target/bin/rig <samples/$name.stream | cmp - samples/$name.listing || { echo "rig: samples/$name.stream prints something else" >&2; exit 1; }
done

# Size again and again, 16,384 times: the first is obeyed, each later one is 22.
printf '\001\001\001\000' >"$work/limit"
for _ in 1 2 3 4 5 6 7 8 9 10 11 12 13 14; do
  cat "$work/limit" "$work/limit" >"$work/twice"
  mv "$work/twice" "$work/limit"
done
target/bin/rig <"$work/limit" >"$work/printed"
[ "$(sort -u "$work/printed")" = 'no 22 0' ] && [ "$(wc -l <"$work/printed")" -eq 16383 ] || { echo "rig: 65,536 bytes print something else" >&2; exit 1; }
printf '\003' >>"$work/limit"
[ "$(target/bin/rig <"$work/limit")" = 'no 13 0' ] || { echo "rig: 65,537 bytes print something else" >&2; exit 1; }

and=' (the examples in C skipped: no C compiler is at hand)'
if command -v "${CC:-cc}" >/dev/null 2>&1; then
  sh examples/c/run.sh >"$work/example"
  target/bin/rig <tests/corpus/line-of-four.stream | cmp - "$work/example" || { echo "rig: the example in C prints something else" >&2; exit 1; }
  sh examples/c/run.sh samples/bumped.stream | cmp - samples/bumped.listing || { echo "rig: the example in C prints something else for a pose taken back" >&2; exit 1; }
  sh examples/c/shared.sh | cmp - samples/pairs.tables || { echo "rig: the example in C prints other tables of shared counts" >&2; exit 1; }
  # The first table is there while the stream is still open.
  mkfifo "$work/bus"
  target/examples/shared 2 <"$work/bus" >"$work/tables" &
  exec 3>"$work/bus"
  head -c 70 samples/pairs.stream >&3
  for _ in 1 2 3 4 5 6 7 8 9 10; do
    grep -q fewer "$work/tables" && break
    sleep 0.5
  done
  head -n 6 samples/pairs.tables | cmp - "$work/tables" || { echo "rig: the example in C does not print a table as poses arrive" >&2; exit 1; }
  tail -c +71 samples/pairs.stream >&3
  exec 3>&-
  wait $!
  cmp "$work/tables" samples/pairs.tables || { echo "rig: the example in C prints other tables as poses arrive" >&2; exit 1; }
  and=' and the examples in C'
fi
echo "rig: the samples, the stream's limit$and, as expected"
python3 -B tests/rig.py target/bin/rig
