#!/usr/bin/env bash
# Compares `expresso block` on a buffer, by a thread for each of 32 clients with 16,384 calls in
# all, with peer.rs, which does the same work by hand, and with `run` by 4 workers: median wall
# times, and the ratio of the first two (block / peer). Unlike the peer, `block` and `run` also read
# the files, compile the monitor, and keep and print a log: the column `text` is `simulate`, which
# does all that on one thread. All runs of a row are interleaved.
#
#   bench/block.sh             builds the program and the peer, and measures
#   EXPRESSO=PROGRAM ROUNDS=N  take this program and build none; so many rounds in place of eleven
set -euo pipefail
here=$(cd "$(dirname "$0")" && pwd)
rounds=${ROUNDS:-11}
work=$(mktemp -d)
trap 'rm -rf "$work"' EXIT

if [ -z "${EXPRESSO:-}" ]; then
  (cd "$here/../crates/expresso_cli" && rt run -- check data/buffer.mon >/dev/null)
  EXPRESSO=$here/../crates/expresso_cli/out/expresso_cli
fi
rustc -O --edition 2021 "$here/peer.rs" -o "$work/peer"
"$here/generate.py" sides >"$work/sides.cl"

echo "block: 32 clients, 16384 calls; medians of $rounds runs; load $(cut -d ' ' -f 1 /proc/loadavg)"
row='%8s %9s %9s %9s %9s %7s\n'
printf "$row" capacity 'block ms' 'run ms' 'text ms' 'peer ms' ratio
for capacity in 1 4; do
  sed "s/CAP = 1/CAP = $capacity/" "$here/../crates/expresso_cli/data/buffer.mon" >"$work/buffer.mon"
  files="$work/buffer.mon $work/sides.cl"
  figures=$("$here/measure.py" times "$rounds" "$EXPRESSO block $files" "$EXPRESSO run $files --workers 4" \
    "$EXPRESSO simulate $files" "$work/peer $((capacity - 1))")
  read -r block run text peer ratio _ <<<"$figures"
  printf "$row" "$capacity" "$block" "$run" "$text" "$peer" "$ratio"
done
