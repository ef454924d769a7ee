#!/usr/bin/env bash
# Times the move of an object, by how many objects are live, in a pool whose zspages are half empty and that is compacted
# whole, for packed objects of several classes. The work of making the pool is measured by a run without a budget, and
# taken off.
set -u
source "$(dirname "$0")/timing.sh" bench_moves
ulimit -s unlimited

printf '%8s %8s %10s %16s\n' length live moves 'ns to move one'
for length in 32 1120 3256; do
  for live in 1000 30000 262144; do
    filled=$(least_time 9 "$length" "$live" 0)
    whole=$(least_time 9 "$length" "$live" "$live")
    moves=$("$program" "$length" "$live" "$live" | awk '{ print $10 }')
    awk -v length_="$length" -v live="$live" -v moves="$moves" -v time=$((whole - filled)) \
      'BEGIN { printf "%8d %8d %10d %16.1f\n", length_, live, moves, moves ? time / moves : 0 }'
  done
done
