#!/usr/bin/env bash
# Compares the modules that `expresso emit` prints with the same as one writes it by hand: a buffer
# (`emitted_buffer.rs`), a semaphore (`emitted_semaphore.rs`) and the map of examples/cache, which
# many read and few write (`emitted_map.rs`). Each row has median times in milliseconds, from when
# all threads are there until the last has ended; beside each half the distance between its
# quartiles, in percent; and the ratio emitted / hand. The runs of a row are interleaved. Columns:
#
#   emitted  the module
#   hand     a mutex and condition variables of std, one waiter woken where one is enough
#   counted  the same with sleepers counted, and nobody notified where nobody sleeps
#   channel  `sync_channel`, its receiver behind a mutex; a permit is a place that is free
#   rwlock   `RwLock` of std
#   parking  of the crate parking_lot: as `hand`, or its RwLock. It wants cargo and Debian's package
#            librust-parking-lot-dev, and is left out where one of them is not there
#
#   bench/emitted.sh           builds the program, the modules and their peers, and measures
#   EXPRESSO=PROGRAM ROUNDS=N  take this program and build none; so many rounds in place of eleven
set -euo pipefail
here=$(cd "$(dirname "$0")" && pwd)
data=$here/../crates/expresso_cli/data
cache=$here/../examples/cache
registry=/usr/share/cargo/registry
rounds=${ROUNDS:-11}
work=$(mktemp -d)
trap 'rm -rf "$work"' EXIT

if [ -z "${EXPRESSO:-}" ]; then
  (cd "$data/.." && rt run -- check data/buffer.mon >/dev/null)
  EXPRESSO=$data/../out/expresso_cli
fi

# build_parking: the crate parking_lot, without the network
build_parking() {
  local home=$work/parking
  mkdir -p "$home/src" && touch "$home/src/lib.rs" &&
    printf '%s\n' '[package]' 'name = "parking"' 'version = "0.0.0"' 'edition = "2021"' \
      '[dependencies]' 'parking_lot = "0.12"' >"$home/Cargo.toml" &&
    (cd "$home" && cargo build --quiet --offline --release --target-dir "$work/target" \
      --config 'source.crates-io.replace-with="debian"' \
      --config "source.debian.directory='$registry'")
}

# build PROGRAM OUT WORD..: a program beside its module, with these words for rustc
build() {
  rustc -O -D warnings --edition 2021 "$work/$1.rs" -o "$work/$2" "${parking[@]}" "${@:3}"
}

# header LABEL KIND..: the first line of a table
header() {
  printf '%-18s' "$1"
  printf ' %8s   +-' "${@:2}"
  printf '%7s\n' ratio
}

# measure LABEL PROGRAM WORDS KIND..: a row of a table: the program with each kind and these words
measure() {
  local figures kind commands=()
  for kind in "${@:4}"; do
    commands+=("$work/$2 $kind $3")
  done
  figures=$("$here/measure.py" spans "$rounds" "${commands[@]}")
  read -ra figures <<<"$figures"
  printf '%-18s' "$1"
  printf ' %8s %4s' "${figures[@]:0:${#figures[@]}-1}"
  printf '%7s\n' "${figures[-1]}"
}

echo "emitted: medians of $rounds runs; load $(cut -d ' ' -f 1 /proc/loadavg)"
kinds=(emitted hand counted channel)
locks=(emitted hand counted rwlock)
parking=()
if compgen -G "$registry/parking_lot-0.12.*" >/dev/null && build_parking; then
  parking=(--cfg parking_lot -L "$work/target/release/deps" --extern parking_lot)
  kinds+=(parking)
  locks+=(parking)
else
  echo "parking_lot was not built: it wants cargo and Debian's package librust-parking-lot-dev"
fi

cp "$here"/emitted_*.rs "$work"
for room in 1 64; do
  sed "s/CAP = 1/CAP = $room/" "$data/buffer.mon" >"$work/buffer.mon"
  "$EXPRESSO" emit "$work/buffer.mon" >"$work/buffer.rs"
  build emitted_buffer "buffer_$room"
done
"$EXPRESSO" emit "$data/semaphore.mon" >"$work/semaphore.rs"
build emitted_semaphore semaphore
"$EXPRESSO" emit "$cache/monitors/map_gate.mon" >"$work/map_gate.rs"
OUT_DIR=$work rustc -O --edition 2021 --crate-type rlib --crate-name cache "$cache/src/lib.rs" \
  -o "$work/libcache.rlib"
build emitted_map map --extern "cache=$work/libcache.rlib"

printf '\none thread, 100000 calls of each of two methods\n'
header monitor "${kinds[@]}"
measure 'buffer, room 64' buffer_64 'alone 100000' "${kinds[@]}"
measure 'semaphore of 2' semaphore '1 100000' "${kinds[@]}"

printf '\na semaphore of 2, 320000 calls of each of two methods\n'
header threads "${kinds[@]}"
measure 16 semaphore '16 320000' "${kinds[@]}"

printf '\na buffer, 32000 items put by threads beside threads that get\n'
header 'room   put    get' "${kinds[@]}"
for room in 1 64; do
  for sides in '1 1' '1 16' '16 1' '4 4' '16 16'; do
    read -r putters getters <<<"$sides"
    label=$(printf '%4s %5s %6s' "$room" "$putters" "$getters")
    measure "$label" "buffer_$room" "$sides 32000" "${kinds[@]}"
  done
done

printf '\na map, 320000 calls, of which so many in a hundred write\n'
header 'threads    writes' "${locks[@]}"
for threads in 1 4 16; do
  for writes in 0 5 20; do
    label=$(printf '%7s %9s' "$threads" "$writes")
    measure "$label" map "$threads 320000 $writes" "${locks[@]}"
  done
done
