#!/usr/bin/env bash
# Times compactions in zramsim, and prints two tables. It reports, and judges nothing.
#
#   bench/compact.sh [PROGRAM]
#
# Moves: disks of up to 262,144 packed pages, of which six in each seven are discarded, so that each zspage of seven
# cells is left with one object; and the same jobs without their `compact`, so that what it costs can be read off.
#
# Nothing to move: up to 100,000 compactions of a disk that has no object, so that what one costs can be read off.
set -u
source "$(dirname "${BASH_SOURCE[0]}")/jobs.sh"

# A disk of so many pages, of which only each seventh is left; compacted where the last word is 1.
sparse() {
  awk -v n="$1" -v compacts="$2" 'BEGIN {
    printf "disksize %dK\nactor\n", 4 * n
    for (p = 0; p < n; p++) print "write " 8 * p " 8 seq f4240 1"
    for (p = 0; p < n; p++) if (p % 7) print "discard " 8 * p " 8"
    if (compacts) print "compact"
    print "run\nmm_stat"
  }' >"$job"
}

printf '%-10s %9s %12s %12s %14s\n' pages moves frames seconds 'ns a move'
for count in 1029 16807 65534 262143; do
  sparse "$count" 0
  measure "$program" run
  before=$seconds
  sparse "$count" 1
  measure "$program" run
  awk -v n="$count" -v s="$seconds" -v b="$before" '$1 == "op" && $4 == "compacted" {
    printf "%-10d %9d %12d %12.3f %14.0f\n", n, $5, $6, s - b, (s - b) * 1e9 / $5
  }' "$out"
done

printf '\n%-10s %9s %14s\n' compactions seconds 'ns each'
for count in 1000 10000 100000; do
  awk -v n="$count" 'BEGIN { print "disksize 4K\nactor"; for (i = 0; i < n; i++) print "compact"; print "run" }' >"$job"
  measure "$program" run
  awk -v n="$count" -v s="$seconds" 'BEGIN { printf "%-10d %9s %14.0f\n", n, s, s * 1e9 / n }'
done
