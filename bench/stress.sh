#!/usr/bin/env bash
# Compares `expresso stress N --workers W` with peer.rs, which does the same work by hand: median
# wall time and peak memory of both, and the ratio of the times (ours / peer). All runs of a row are
# interleaved.
#
#   bench/stress.sh            builds the program and the peer, and measures
#   EXPRESSO=PROGRAM ROUNDS=N  take this program and build none; so many rounds in place of eleven
set -euo pipefail
here=$(cd "$(dirname "$0")" && pwd)
rounds=${ROUNDS:-11}
work=$(mktemp -d)
trap 'rm -rf "$work"' EXIT

if [ -z "${EXPRESSO:-}" ]; then
  (cd "$here/../crates/expresso_cli" && rt run -- check data/buffer.mon >/dev/null)
  EXPRESSO=$here/../crates/expresso_cli/out/expresso_cli
fi
rustc -O --edition 2021 "$here/peer.rs" -o "$work/peer"

echo "stress: 32 clients, 16384 calls; medians of $rounds runs"
row='%8s %7s %9s %9s %7s %9s %9s\n'
printf "$row" capacity workers 'ours ms' 'peer ms' ratio 'ours KiB' 'peer KiB'
for number in 0 3; do
  for workers in 1 4 16; do
    figures=$("$here/measure.py" pair "$rounds" "$EXPRESSO stress $number --workers $workers" "$work/peer $number")
    read -r ours peer ratio our_memory peer_memory <<<"$figures"
    printf "$row" $((number + 1)) "$workers" "$ours" "$peer" "$ratio" "$our_memory" "$peer_memory"
  done
done
