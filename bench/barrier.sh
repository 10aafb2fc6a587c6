#!/usr/bin/env bash
# Runs `expresso block` again and again on a barrier, at which 32 callers wait for the last of them,
# and says how many runs ended well: with status 0, 64 replies, and the state in which all have
# come. A caller that is left parked shows as a run that is cut off.
#
#   bench/barrier.sh          builds the program, and runs it
#   EXPRESSO=PROGRAM RUNS=N   take this program and build none; so many runs in place of 1,000
#   SECONDS_EACH=N            cut a run off after so many seconds in place of 10
set -euo pipefail
here=$(cd "$(dirname "$0")" && pwd)
runs=${RUNS:-1000}
seconds=${SECONDS_EACH:-10}
work=$(mktemp -d)
trap 'rm -rf "$work"' EXIT

if [ -z "${EXPRESSO:-}" ]; then
  (cd "$here/../crates/expresso_cli" && rt run -- check data/buffer.mon >/dev/null)
  EXPRESSO=$here/../crates/expresso_cli/out/expresso_cli
fi
cat >"$work/barrier.mon" <<'MONITOR'
monitor Barrier {
  const ALL = 32;
  int here = 0;
  method meet()
    waituntil (true) {
      here = here + 1;
    }
    waituntil (here == ALL) {
    }
}
MONITOR
for number in $(seq 32); do echo "client C$number { meet(); }"; done >"$work/barrier.cl"

# Whether a run ended well, by its status and what it printed.
ended_well() {
  [ "$1" = 0 ] && [ "$(grep -c ' = -' "$work/log")" = 64 ] &&
    [ "$(tail -n 2 "$work/log")" = $'done\nstate here=32' ]
}

well=0 cut=0
for _ in $(seq "$runs"); do
  status=0
  timeout "$seconds" "$EXPRESSO" block "$work/barrier.mon" "$work/barrier.cl" >"$work/log" || status=$?
  if ended_well "$status"; then
    well=$((well + 1))
  elif [ "$status" = 124 ]; then
    cut=$((cut + 1))
  fi
done
echo "barrier of 32 callers: $runs runs, $well ended well, $cut were cut off after $seconds seconds"
[ "$well" = "$runs" ]
