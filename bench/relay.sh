#!/usr/bin/env bash
# Counts wake-ups under the placed plan and the relayed one: a buffer with room for 4, with clients
# that only put or only get, and readers and writers. EXPRESSO=PROGRAM takes a program that is
# built.
set -eu
here=$(cd "$(dirname "$0")" && pwd)
program=${EXPRESSO:-$here/../crates/expresso_cli/out/expresso_cli}
data=$here/../crates/expresso_cli/data
work=$(mktemp -d)
trap 'rm -rf "$work"' EXIT
sed 's/CAP = 1/CAP = 4/' "$data/buffer.mon" >"$work/buffer.mon"
"$here/generate.py" sides >"$work/buffer.cl"
cp "$data/readers_writers.mon" "$work/"
{
  for i in $(seq 24); do echo "client R$i { repeat 256 { startRead(); endRead(); } }"; done
  for i in $(seq 8); do echo "client W$i { repeat 128 { ask(); startWrite(); endWrite(); } }"; done
} >"$work/readers_writers.cl"
echo "monitor          workers  plan     waits    woken"
for name in buffer readers_writers; do
  for workers in 1 4 16; do
    for plan in placed relayed; do
      option=()
      [ "$plan" = placed ] || option=(--relay)
      "$program" run "$work/$name.mon" "$work/$name.cl" --workers "$workers" "${option[@]}" >"$work/log"
      woken=$(sed -n 's/.* wakes //p' "$work/log" | wc -w)
      printf '%-16s %7d  %-8s %6d  %6d\n' "$name" "$workers" "$plan" "$(grep -c ' waits$' "$work/log")" "$woken"
    done
  done
done
