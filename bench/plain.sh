#!/usr/bin/env bash
# Times zramsim beside bench/plain.rs, a plain Rust program of the same steps, which rustc compiles with optimisations for
# x86-64-v2, as zramsim is compiled. It is skipped where there is no rustc. It reports, and judges nothing.
#
#   bench/plain.sh [PROGRAM]
#
# Two jobs of 16,384 pages, a quarter each same-filled, packed in 1120 bytes, huge and packed in 2656 bytes. The first is
# read, and writes and reads each page whole. The second is the one that the words `gen 16384 1` ask for: between the
# writes and the reads the huge pages are written back and the pools compacted, and of its output the reports alone are
# printed. Both programs run by turns, and what they print has to be the same. The times are of the processor, for the
# program and for the system beside it: the least and the middle of 15 runs.
set -u
source "$(dirname "${BASH_SOURCE[0]}")/jobs.sh"

if ! command -v rustc >/dev/null 2>&1; then
  echo 'skipped: there is no rustc'
  exit 0
fi
plain=$folder/plain
rustc --edition 2021 -O -C target-cpu=x86-64-v2 -o "$plain" "$top/bench/plain.rs" || exit 1

awk 'BEGIN {
  n = 16384
  kind[0] = "fill 1"; kind[1] = "seq f4240 1"; kind[2] = "seq 0 9e3779b97f4a7c15"; kind[3] = "seq f4240 1000000"
  printf "disksize %dK\nactor\n", 4 * n
  for (p = 0; p < n; p++) print "write " 8 * p " 8 " kind[p % 4]
  for (p = 0; p < n; p++) print "read " 8 * p " 8"
  print "run\nmm_stat"
}' >"$job"

# The words of both programs; the job is the standard input.
compare() {
  "$plain" "$@" <"$job" >"$folder/plain.out"
  "$program" "$@" <"$job" >"$out"
  cmp "$folder/plain.out" "$out" || exit 1
  rm -f "$folder"/*.times
  for _ in $(seq 15); do
    { time "$program" "$@" <"$job" >/dev/null; } 2>>"$folder/program.times"
    { time "$plain" "$@" <"$job" >/dev/null; } 2>>"$folder/plain.times"
  done
  printf '\n%s\n%-10s %8s %8s\n' "$*" program least middle
  for name in program plain; do
    awk '{ printf "%.3f\n", $1 + $2 }' "$folder/$name.times" | sort -n |
      awk -v name="$name" '{ t[NR] = $1 } END { printf "%-10s %8s %8s\n", name, t[1], t[int((NR + 1) / 2)] }'
  done
}
TIMEFORMAT='%3U %3S'
compare run
compare gen 16384 1
