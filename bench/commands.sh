#!/usr/bin/env bash
# Measures the program's commands on generated files of 4,096, 16,384 and 65,536 bytes, `compile`
# and `explain` on monitors that are hard to compile, `run` on a buffer with 32 clients and 16,384
# calls, and a monitor of 64 blocks: median wall time, instructions as callgrind counts them, and
# peak memory. With more than one worker the instructions vary with the schedule, and are not
# counted.
#
#   bench/commands.sh          builds the program, and measures
#   EXPRESSO=PROGRAM ROUNDS=N  take this program and build none; so many rounds in place of eleven
set -euo pipefail
here=$(cd "$(dirname "$0")" && pwd)
rounds=${ROUNDS:-11}
work=$(mktemp -d)
trap 'rm -rf "$work"' EXIT
row='%-9s %-16s %7s %10s %14s %9s\n'

if [ -z "${EXPRESSO:-}" ]; then
  (cd "$here/../crates/expresso_cli" && rt run -- check data/buffer.mon >/dev/null)
  EXPRESSO=$here/../crates/expresso_cli/out/expresso_cli
fi

# measure COMMAND FILES WORKERS ARGUMENTS: a row of the table. WORKERS is - where the command takes
# none.
measure() {
  local flags=() call="$EXPRESSO $1 $4" figures
  case $3 in
  - | 1) flags=(--instructions) ;;
  esac
  [ "$3" = - ] || call="$call --workers $3"
  figures=$("$here/measure.py" single "$rounds" "$call" "${flags[@]}")
  printf "$row" "$1" "$2" "$3" $figures
}

printf "$row" command files workers ms instructions KiB
for size in 4096 16384 65536; do
  monitor=$work/$size.mon clients=$work/$size.cl
  "$here/generate.py" monitor "$size" >"$monitor"
  "$here/generate.py" clients "$size" >"$clients"
  measure check "$size" - "$monitor"
  measure compile "$size" - "$monitor"
  measure turns "$size" - "$monitor $clients"
  measure simulate "$size" - "$monitor $clients"
  for workers in 1 4 16; do
    measure run "$size" "$workers" "$monitor $clients"
  done
done

for name in rounds deep flags wide numbers; do
  "$here/hard.py" "$name" >"$work/$name.mon"
  measure compile "$name.mon" - "$work/$name.mon"
  measure explain "$name.mon" - "$work/$name.mon"
done

for clients in sides in-turn; do
  "$here/generate.py" "$clients" >"$work/$clients.cl"
  for workers in 1 4 16; do
    measure run "buffer, $clients" "$workers" "$here/../crates/expresso_cli/data/buffer.mon $work/$clients.cl"
  done
done

"$here/generate.py" blocks >"$work/blocks.mon"
"$here/generate.py" in-blocks >"$work/blocks.cl"
measure compile blocks - "$work/blocks.mon"
measure simulate blocks - "$work/blocks.mon $work/blocks.cl"
for workers in 1 4 16; do
  measure run blocks "$workers" "$work/blocks.mon $work/blocks.cl"
done
