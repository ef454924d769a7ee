#!/usr/bin/env bash
# Times zramsim on disks whose pages are of one kind, and prints a table for each kind. It reports, and judges nothing.
#
#   bench/pages.sh [PROGRAM]
#
# The kinds are those of pages that are kept differently: never written, same-filled, packed in 1120 bytes, packed in
# 2656 bytes, and huge. Each page is written whole by one request, and up to 16,384 of them are read whole too. Beside time
# and peak memory stand the bytes that mm_stat counts for the frames of all zspages, so that what a page costs beside
# its frames can be read off.
set -u
source "$(dirname "${BASH_SOURCE[0]}")/jobs.sh"

# A disk of so many pages, each written whole with this stuff, and read whole where the last word is 1.
pages() {
  awk -v n="$1" -v stuff="$2" -v reads="$3" 'BEGIN {
    printf "disksize %dK\nactor\n", 4 * n
    if (stuff != "") for (p = 0; p < n; p++) print "write " 8 * p " 8 " stuff
    if (reads) for (p = 0; p < n; p++) print "read " 8 * p " 8"
    print "run\nmm_stat"
  }' >"$job"
}

row() {
  measure "$program" run
  local used
  used=$(awk '$1 == "mm_stat" { print $4 }' "$out")
  awk -v name="$1" -v s="$seconds" -v m="$peak" -v n="$1" -v u="$used" 'BEGIN {
    printf "%-10d %9s %10s %12.1f %14.0f %16.0f\n", name, s, m, u / 1048576, s * 1e9 / n, (m * 1048576 - u) / n
  }'
}

table() {
  printf '\n%s\n' "$1"
  printf '%-10s %9s %10s %12s %14s %16s\n' pages seconds 'peak MiB' 'frames MiB' 'ns a page' 'other bytes/page'
  for count in 1024 4096 16384 65536 262144; do
    pages "$count" "$2" 0
    row "$count"
  done
}

table 'Never written' ''
table 'Same-filled' 'fill aa'
table 'Packed in 1120 bytes' 'seq f4240 1'
table 'Packed in 2656 bytes' 'seq f4240 1000000'
table 'Huge' 'seq 0 9e3779b97f4a7c15'

printf '\n%s\n' '16,384 pages, a quarter of each kind, written and read whole'
printf '%-10s %9s %10s %12s %14s %16s\n' pages seconds 'peak MiB' 'frames MiB' 'ns a page' 'other bytes/page'
awk 'BEGIN {
  n = 16384
  kind[0] = "fill 1"; kind[1] = "seq f4240 1"; kind[2] = "seq 0 9e3779b97f4a7c15"; kind[3] = "seq f4240 1000000"
  printf "disksize %dK\nactor\n", 4 * n
  for (p = 0; p < n; p++) print "write " 8 * p " 8 " kind[p % 4]
  for (p = 0; p < n; p++) print "read " 8 * p " 8"
  print "run\nmm_stat"
}' >"$job"
row 16384
