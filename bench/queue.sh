#!/usr/bin/env bash
# Compares a job queue whose jobs are the data of the module that `expresso emit` prints of
# `job_gate.mon` with the same by hand (`job_queue.rs`: one mutex, two condition variables, one
# waiter woken for each job and each slot): median wall times, and their ratio, for so many threads
# that push beside so many that run jobs. The runs of a row are interleaved.
#
#   bench/queue.sh             builds the program and the queues, and measures
#   EXPRESSO=PROGRAM ROUNDS=N  take this program and build none; so many rounds in place of eleven
set -euo pipefail
here=$(cd "$(dirname "$0")" && pwd)
rounds=${ROUNDS:-11}
work=$(mktemp -d)
trap 'rm -rf "$work"' EXIT

if [ -z "${EXPRESSO:-}" ]; then
  (cd "$here/../crates/expresso_cli" && rt run -- check data/buffer.mon >/dev/null)
  EXPRESSO=$here/../crates/expresso_cli/out/expresso_cli
fi
cp "$here/job_queue.rs" "$work"
"$EXPRESSO" emit "$here/job_gate.mon" >"$work/job_gate.rs"
rustc -O -D warnings --edition 2021 "$work/job_queue.rs" -o "$work/job_queue"

echo "queue: 32000 jobs, room for 64; medians of $rounds runs; load $(cut -d ' ' -f 1 /proc/loadavg)"
row='%10s %8s %11s %9s %7s\n'
printf "$row" producers workers 'emitted ms' 'hand ms' ratio
for sides in '1 16' '16 1' '4 4' '16 16'; do
  figures=$("$here/measure.py" pair "$rounds" "$work/job_queue emitted $sides 32000" "$work/job_queue hand $sides 32000")
  read -r emitted hand ratio _ <<<"$figures"
  read -r producers workers <<<"$sides"
  printf "$row" "$producers" "$workers" "$emitted" "$hand" "$ratio"
done
