#!/usr/bin/env bash
# Times idle pages and writebacks in zramsim beside plain loops in C (bench/writeback.c, left out where there is no C
# compiler), and prints two tables. It reports, and judges nothing.
#
#   bench/writeback.sh [PROGRAM]
#
# Scans: disks of up to 262,144 pages, empty or packed, through which 32 `idle` and 32 `writeback huge` go, which take
# none. The last rows scan as many pages as a job may. The plain loop goes through as many entries.
#
# Writebacks: 4,096 pages of one kind, each written back: to blocks to which nothing was written before, of which the
# system has to hand out the memory; and again, to blocks that were written. The plain loop copies as many pages from
# memory of their own into one page, and from there into their blocks, and gives their memory up.
#
# The times are of the processor, for the program and for the system beside it: the least of some runs, or of some rows of
# runs, less that of the same job without the lines that are timed.
set -u
source "$(dirname "${BASH_SOURCE[0]}")/jobs.sh"

plain=
if command -v cc >/dev/null 2>&1; then
  plain=$folder/plain
  cc -O3 -march=x86-64-v2 -o "$plain" "$top/bench/writeback.c" || exit 1
fi

TIMEFORMAT='%3U %3S'
# The least seconds of processor time of a run of the program on the job, by five rows of so many runs.
least() {
  local runs=$1
  for _ in 1 2 3 4 5; do
    { time for _ in $(seq "$runs"); do "$program" run <"$job" >"$out"; done; } 2>&1
  done | awk -v n="$runs" '{ printf "%.6f\n", ($1 + $2) / n }' | sort -n | head -1
}

# A disk of so many pages, which are packed where the second word is 1, and are scanned so many times by two kinds of line.
scanned() {
  awk -v n="$1" -v packed="$2" -v times="$3" 'BEGIN {
    printf "backing 1\ndisksize %dK\nactor\n", 4 * n
    if (packed) for (p = 0; p < n; p += 256) print "write " 8 * p " 2048 seq f4240 1"
    print "run\nactor"
    for (i = 0; i < times; i++) print "idle all\nwriteback huge"
    print "run"
  }' >"$job"
}

printf '%-10s %-8s %12s %9s %12s\n' pages kind scanned seconds 'ns a page'
for count in 4096 65536 262144; do
  for packed in 1 0; do
    scanned "$count" "$packed" 0
    before=$(least 1)
    scanned "$count" "$packed" 32
    after=$(least 1)
    awk -v n="$count" -v packed="$packed" -v s="$after" -v b="$before" 'BEGIN {
      printf "%-10d %-8s %12d %9.3f %12.0f\n", n, packed ? "packed" : "empty", 64 * n, s - b, (s - b) * 1e9 / (64 * n)
    }'
  done
done
[ -z "$plain" ] || printf '%-10s %-8s %s\n' 262144 'in C' "$("$plain" scan)"

# A disk of 4,096 pages of one kind, which are written and marked so many times, and written back after each time but the
# last one; after that too where the last word is 1.
written() {
  awk -v stuff="$1" -v times="$2" -v last="$3" 'BEGIN {
    print "backing 4096\ndisksize 16M"
    for (i = 1; i <= times; i++) {
      print "actor"
      for (p = 0; p < 4096; p++) print "write " 8 * p " 8 " stuff
      print "idle all\nrun\nactor"
      if (i < times || last) print "writeback idle"
      print "run"
    }
    print "bd_stat"
  }' >"$job"
}

printf '\n%-24s %12s %12s\n' 'ns a page' first again
while read -r stuff kind; do
  cost=
  for times in 1 2; do
    written "${stuff//_/ }" "$times" 0
    before=$(least 20)
    written "${stuff//_/ }" "$times" 1
    after=$(least 20)
    cost="$cost $(awk -v s="$after" -v b="$before" 'BEGIN { printf "%12.0f", (s - b) * 1e9 / 4096 }')"
  done
  printf '%-23s%s\n' "$kind" "$cost"
done <<'KINDS'
seq_0_9e3779b97f4a7c15 huge
seq_f4240_1 packed in 1120 bytes
seq_f4240_1000000 packed in 2656 bytes
KINDS
[ -z "$plain" ] || printf '%-23s%s\n' 'copied in C' "$("$plain" copy)"
