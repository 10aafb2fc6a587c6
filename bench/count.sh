#!/usr/bin/env bash
# Compares `run` and `block` with and without `--count`, of a buffer with room for 4 and 32 clients
# with 16,384 calls in all, half of whom put and half get: median wall times with their ratio
# (counted / placed), and of one run each how often a client waited and was woken. `run` has 1, 4
# and 16 workers, `block` a thread for each client. All runs of a row are interleaved.
#
#   bench/count.sh             builds the program, and measures
#   EXPRESSO=PROGRAM ROUNDS=N  take this program and build none; so many rounds in place of eleven
set -euo pipefail
here=$(cd "$(dirname "$0")" && pwd)
rounds=${ROUNDS:-11}
work=$(mktemp -d)
trap 'rm -rf "$work"' EXIT

if [ -z "${EXPRESSO:-}" ]; then
  (cd "$here/../crates/expresso_cli" && rt run -- check data/buffer.mon >/dev/null)
  EXPRESSO=$here/../crates/expresso_cli/out/expresso_cli
fi
sed 's/CAP = 1/CAP = 4/' "$here/../crates/expresso_cli/data/buffer.mon" >"$work/buffer.mon"
"$here/generate.py" sides >"$work/sides.cl"
row='%-8s %7s %10s %11s %6s %19s %20s\n'

# wakes COMMAND: how often clients waited and were woken in one run of it
wakes() {
  $1 >"$work/log" || return
  local woken
  woken=$(sed -n 's/.* wakes //p' "$work/log" | wc -w)
  printf '%d/%d' "$(grep -c ' waits$' "$work/log" || true)" "$woken"
}

# measure NAME WORKERS COMMAND: a row of the table
measure() {
  local figures counted placed ratio placed_wakes counted_wakes
  figures=$("$here/measure.py" times "$rounds" "$3 --count" "$3")
  read -r counted placed ratio <<<"$figures"
  placed_wakes=$(wakes "$3")
  counted_wakes=$(wakes "$3 --count")
  printf "$row" "$1" "$2" "$placed" "$counted" "$ratio" "$placed_wakes" "$counted_wakes"
}

load=$(cut -d ' ' -f 1 /proc/loadavg)
echo "count: 32 clients, 16384 calls; medians of $rounds runs; load $load"
printf "$row" command workers 'placed ms' 'counted ms' ratio \
  'placed waits/woken' 'counted waits/woken'
for workers in 1 4 16; do
  measure run "$workers" "$EXPRESSO run $work/buffer.mon $work/sides.cl --workers $workers"
done
measure block - "$EXPRESSO block $work/buffer.mon $work/sides.cl"
