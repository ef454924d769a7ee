#!/usr/bin/env bash
# Times zramsim on jobs of several actors, and prints a table. It reports, and judges nothing.
#
#   bench/turns.sh [PROGRAM]
#
# Turns: 16,777,216 in the schedule of one phase, the most that a job may have, of which nearly all are misses at a held
# slot or turns of a finished actor; and 4,000,000 that stand one by one in the text.
#
# Operations: up to 1,000,000 discards of a page by 64 actors, without a schedule, so that rounds serve them.
#
# Pages: disks of 32,768 to 262,144 pages, of which each is written once by one of four actors.
#
# Phases: none and 1,000 on a disk of 262,144 pages, without operations and of one read each, so that what a phase costs
# can be read off.
set -u
source "$(dirname "${BASH_SOURCE[0]}")/jobs.sh"

# Prints a row: its name, and what the job's run took, whole and for each of so many things.
row() {
  measure "$program" run
  awk -v name="$1" -v n="$2" -v s="$seconds" -v m="$peak" 'BEGIN {
    printf "%-44s %11d %9s %9s %9.0f\n", name, n, s, m, s * 1e9 / n
  }'
}

printf '%-44s %11s %9s %9s %9s\n' job number seconds 'peak MiB' 'ns each'

for count in 4194304 8388608 16777216; do
  printf 'disksize 4K\nactor\nread 0 8\nactor\nread 0 8\nschedule 0 1*%d\nrun\n' $((count - 1)) >"$job"
  row 'turns that are misses' "$count"
done
for count in 4194304 8388608 16777216; do
  printf 'disksize 4K\nactor\nread 0 8\nactor\nread 0 8\nschedule 0*%d\nrun\n' "$count" >"$job"
  row 'turns of a finished actor' "$count"
done
awk 'BEGIN {
  print "disksize 4K\nactor\nread 0 8\nactor\nread 0 8"
  for (i = 0; i < 40000; i++) {
    printf "schedule"
    for (k = 0; k < 50; k++) printf " 0 1"
    print ""
  }
  print "run"
}' >"$job"
row 'turns one by one in the text' 4000000

for count in 250000 500000 1000000; do
  awk -v n="$count" 'BEGIN {
    print "disksize 1M"
    for (a = 0; a < 64; a++) {
      print "actor"
      for (k = 0; k < n / 64; k++) printf "discard %d 8\n", 8 * ((a + k) % 256)
    }
    print "run"
  }' >"$job"
  row 'operations of 64 actors' "$count"
done

for size in 128 256 512 1024; do
  awk -v n="$size" 'BEGIN {
    printf "disksize %dM\n", n
    for (a = 0; a < 4; a++) {
      print "actor"
      for (i = a; i < n; i += 4) printf "write %d 2048 fill %x\n", 2048 * i, i
    }
    print "run"
  }' >"$job"
  row 'pages written by four actors' $((256 * size))
done

# So many phases on a disk of 262,144 pages, each of these operations.
phases() {
  awk -v n="$1" -v ops="$2" 'BEGIN {
    print "disksize 1024M"
    for (i = 0; i < n; i++) printf "%srun\n", ops
  }' >"$job"
}

phases 0 ''
row 'no phase on 262,144 pages' 1
phases 1000 ''
row 'empty phases on 262,144 pages' 1000
phases 1000 'actor\nread 0 8\n'
row 'phases of one read on 262,144 pages' 1000
