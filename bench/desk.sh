#!/usr/bin/env bash
# Compares desk.rs, a trial of a ticket lock whose waiting callers lend their seat, with lock.rs,
# the same machine behind a std::sync::Mutex: sections a second from 1, 2, 4 and 16 threads with ten
# times the calls of lock.sh, as parts of the mutex's. A column is a manner of the desk (the words
# are those of desk.rs). All runs of a row are interleaved.
#
#   bench/desk.sh     builds both programs, and measures
#   ROUNDS=N          so many rounds in place of five
set -euo pipefail
here=$(cd "$(dirname "$0")" && pwd)
rounds=${ROUNDS:-5}
work=$(mktemp -d)
trap 'rm -rf "$work"' EXIT

calls=5120

# The manners: nobody makes another's section; the holder serves each ticket of those whose sections
# it makes, or only the one after them; who waits yields, or sleeps and is woken late, at once or
# not where some of its calls had no reply.
names=(ticket each once yield late mixed)
manners=(
  "lend=0"
  "lend=1"
  "lend=2"
  "lend=2 rest=1"
  "lend=2 rest=3 spin=20 again=0"
  "lend=2 rest=3 spin=40 again=0 glad=8 ring=32"
)

for name in lock desk; do
  rustc -O --edition 2021 "$here/$name.rs" -o "$work/$name"
done

echo "sections a second, as parts of the mutex's: 32 clients, $((32 * calls)) calls; medians of $rounds runs"
row="%-8s %7s %12s$(printf ' %%7s%.0s' "${names[@]}")\n"
printf "$row" workload threads mutex "${names[@]}"
for workload in level buffer; do
  for threads in 1 2 4 16; do
    given="$workload $threads 1 $calls"
    commands=()
    for manner in "${manners[@]}"; do
      commands+=("timeout 60 $work/desk $given $manner")
    done
    read -ra figures <<<"$("$here/measure.py" rates "$rounds" "${commands[@]}" "$work/lock $given")"
    printf "$row" "$workload" "$threads" "${figures[@]:${#names[@]}}"
  done
done
