#!/usr/bin/env bash
# What more workers cost: `expresso run` on a buffer with room for 1 by 32 clients with 16,384 calls
# in all (`in-turn`: each puts and gets in turn; `sides`: half put and half get), and
# `expresso stress`, by 4 and 16 workers beside one. Median wall times, and the ratio of each to that
# of one worker. All runs of a row are interleaved.
#
#   bench/workers.sh           builds the program, and measures
#   EXPRESSO=PROGRAM ROUNDS=N  take this program and build none; so many rounds in place of eleven
set -euo pipefail
here=$(cd "$(dirname "$0")" && pwd)
rounds=${ROUNDS:-11}
work=$(mktemp -d)
trap 'rm -rf "$work"' EXIT

if [ -z "${EXPRESSO:-}" ]; then
  (cd "$here/../crates/expresso_cli" && rt run -- check data/buffer.mon >/dev/null)
  EXPRESSO=$here/../crates/expresso_cli/out/expresso_cli
fi

echo "by 4, 16 and 1 workers: 32 clients, 16384 calls; medians of $rounds runs"
row='%-14s %8s %8s %8s %8s %8s\n'
printf "$row" command '4 ms' '16 ms' '1 ms' '4 / 1' '16 / 1'

# measure NAME COMMAND: a row of the table.
measure() {
  local figures
  figures=$("$here/measure.py" times "$rounds" "$2 --workers 4" "$2 --workers 16" "$2 --workers 1")
  printf "$row" "$1" $figures
}

for clients in in-turn sides; do
  "$here/generate.py" "$clients" >"$work/$clients.cl"
  measure "run $clients" "$EXPRESSO run $here/../crates/expresso_cli/data/buffer.mon $work/$clients.cl"
done
for number in 0 3; do
  measure "stress $number" "$EXPRESSO stress $number"
done
