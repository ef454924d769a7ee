#!/usr/bin/env bash
# Times zramsim on jobs of one actor, and prints a table for each kind of job. It reports, and judges nothing.
#
#   bench/first.sh [PROGRAM]
#
# Pages written and read whole: requests of 2,048 sectors, on disks of 2,048 to 32,768 pages. A job reads at most
# 262,144 sectors, so a disk of 128M is the greatest that can be read whole. Beside each row stands the time in which
# `cat` copies as many bytes as the job prints to /dev/null.
#
# Long texts: up to 980,000 writes of one sector, and up to 16,777,216 bytes of lines without words.
set -u
source "$(dirname "${BASH_SOURCE[0]}")/jobs.sh"

# Prints a row: its name, and what the job's run took.
row() {
  local bytes read_bytes copy
  read_bytes=$(wc -c <"$job")
  measure "$program" run
  local taken=$seconds memory=$peak
  bytes=$(wc -c <"$out")
  cp "$out" "$folder/copy"
  local from to
  from=$(date +%s%N)
  cat "$folder/copy" >/dev/null
  to=$(date +%s%N)
  copy=$(awk -v n=$((to - from)) 'BEGIN { printf "%.3f", n / 1e9 }')
  awk -v name="$1" -v i="$read_bytes" -v o="$bytes" -v s="$taken" -v m="$memory" -v c="$copy" 'BEGIN {
    printf "%-28s %11d %11d %8s %9s %13.0f %13.0f %8s\n", name, i, o, s, m, i / s, o / s, c
  }'
}

head_line() {
  printf '\n%s\n' "$1"
  printf '%-28s %11s %11s %8s %9s %13s %13s %8s\n' job 'bytes in' 'bytes out' seconds 'peak MiB' 'in B/s' 'out B/s' 'cat s'
}

# A disk of so many MiB, written and read whole by requests of 2,048 sectors, which are 1 MiB.
whole_disk() {
  awk -v n="$1" 'BEGIN {
    printf "disksize %dM\nactor\n", n
    for (i = 0; i < n; i++) printf "write %d 2048 fill %x\n", 2048 * i, 4096 + i
    for (i = 0; i < n; i++) printf "read %d 2048\n", 2048 * i
    print "run"
  }' >"$job"
}

head_line 'Pages written and read whole'
for size in 8 16 32 64 128; do
  whole_disk "$size"
  row "$((256 * size)) pages"
done

head_line 'Writes of one sector'
for count in 245000 490000 980000; do
  awk -v n="$count" 'BEGIN {
    print "disksize 4K\nactor"
    for (i = 0; i < n; i++) print "write 0 1 fill 1"
    print "run"
  }' >"$job"
  row "$count operations"
done

head_line 'Lines without words'
for count in 4194304 8388608 16777216; do
  head -c $((count - 4)) /dev/zero | tr '\0' '\n' >"$job"
  echo run >>"$job"
  row "$count bytes"
done
