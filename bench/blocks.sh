#!/usr/bin/env bash
# Times a reservation with its release in a map of 65,536 blocks, by how many blocks are taken already.
# The work of making the map and taking blocks is measured by a run without rounds, and taken off.
set -u
source "$(dirname "$0")/timing.sh" bench_blocks
rounds=${1:-20000000}

printf '%8s %24s\n' taken 'ns a reserve and release'
for taken in 0 1 32768 65000 65535; do
  setup=$(least_time 5 65536 "$taken" 0)
  whole=$(least_time 5 65536 "$taken" "$rounds")
  awk -v taken="$taken" -v time=$((whole - setup)) -v rounds="$rounds" \
    'BEGIN { printf "%8d %24.1f\n", taken, time / rounds }'
done
