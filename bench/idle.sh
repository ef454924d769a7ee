#!/usr/bin/env bash
# Times the marking of idle pages in zramsim, and prints a table. It reports, and judges nothing.
#
#   bench/idle.sh [PROGRAM]
#
# Disks of up to 262,144 pages, empty or packed, whose pages are marked 64 times; and the same jobs without their
# `idle`, so that what it costs can be read off. The last row scans as many pages as a job may.
set -u
source "$(dirname "${BASH_SOURCE[0]}")/jobs.sh"

# A disk of so many pages, which are packed where the second word is 1, and are marked so many times.
marked() {
  awk -v n="$1" -v packed="$2" -v times="$3" 'BEGIN {
    printf "disksize %dK\nactor\n", 4 * n
    if (packed) for (p = 0; p < n; p += 256) print "write " 8 * p " 2048 seq f4240 1"
    print "run\nclock 1\nactor"
    for (i = 0; i < times; i++) print "idle 0"
    print "run"
  }' >"$job"
}

printf '%-10s %-8s %12s %9s %12s\n' pages kind scanned seconds 'ns a page'
for count in 4096 65536 262144; do
  for packed in 1 0; do
    marked "$count" "$packed" 0
    measure "$program" run
    before=$seconds
    marked "$count" "$packed" 64
    measure "$program" run
    awk -v n="$count" -v packed="$packed" -v s="$seconds" -v b="$before" 'BEGIN {
      printf "%-10d %-8s %12d %9.3f %12.0f\n", n, packed ? "packed" : "empty", 64 * n, s - b, (s - b) * 1e9 / (64 * n)
    }'
  done
done
