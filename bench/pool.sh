#!/usr/bin/env bash
# Times an object's addition with its freeing in the pool of one class, and an object's pin and unpin with the plan of the
# next move in between, by how many objects are live already, for packed objects of several classes and for whole pages.
# 262,144 whole pages take 1 GiB of memory.
# The work of making the pool and filling it is measured by a run without rounds, and taken off.
set -u
source "$(dirname "$0")/timing.sh" bench_pool
rounds=${1:-1000000}

printf '%8s %8s %16s %20s %24s\n' length live 'ns to fill one' 'ns to add and free' 'ns to pin, plan, unpin'
for length in 32 400 1120 3256 4096; do
  for live in 1000 30000 262144; do
    filled=$(least_time 3 "$length" "$live" 0 0)
    whole=$(least_time 3 "$length" "$live" "$rounds" 0)
    planned=$(least_time 3 "$length" "$live" 0 "$rounds")
    awk -v length_="$length" -v live="$live" -v filled="$filled" -v time=$((whole - filled)) \
      -v plans=$((planned - filled)) -v rounds="$rounds" \
      'BEGIN { printf "%8d %8d %16.1f %20.1f %24.1f\n", length_, live, filled / live, time / rounds, plans / rounds }'
  done
done
