#!/usr/bin/env bash
# Times the printing of an output and its reading back, beside bench/lines.rs, a plain Rust program of the same lines, which
# rustc compiles with optimisations for x86-64-v2, as bench_lines is compiled; it is left out where there is no rustc.
# It reports, and judges nothing.
#
#   bench/lines.sh [LINES] [RUNS]
#
# 134,600 lines are 100 MiB of text: of sixteen lines twelve are sectors by their bytes, and the others are a sector of equal
# words, an operation's end, an order and a line of a report. The programs make the lines (`make`), print them too (`print`),
# and read the text back too (`read`), all by turns. What they print has to be the same. The time of a part is that of a task
# less that of the task before it; of each task the least and the middle time of the runs is taken, of the processor, for the
# program and for the system beside it, and by the clock.
set -u
source "$(dirname "$0")/timing.sh" bench_lines
lines=${1:-134600}
runs=${2:-11}
folder=$(mktemp -d) || exit 1
trap 'rm -rf "$folder"' EXIT
names=proved
cp "$program" "$folder/proved"
if command -v rustc >/dev/null 2>&1; then
  rustc --edition 2021 -O -C target-cpu=x86-64-v2 -o "$folder/plain" bench/lines.rs || exit 1
  names='proved plain'
fi

TIMEFORMAT='%R %U %S'
for _ in $(seq "$runs"); do
  for name in $names; do
    for task in make print read; do
      { time "$folder/$name" $task "$lines" >"$folder/$name.$task.out"; } 2>>"$folder/$name.$task.times"
      cmp "$folder/proved.$task.out" "$folder/$name.$task.out" || exit 1
    done
  done
done
bytes=$(awk '/^bytes/ { print $2 }' "$folder/proved.print.out")
echo "$lines lines, $bytes bytes"

# The least and the middle time of a task: times NAME TASK, by the clock and of the processor.
times() {
  for column in '$1' '$2 + $3'; do
    awk "{ print $column }" "$folder/$1.$2.times" | sort -n |
      awk '{ t[NR] = $1 } END { printf "%s %s ", t[1], t[int((NR + 1) / 2)] }'
  done
}

printf '%-8s %-6s %16s %16s %16s %16s\n' program part 'MB/s, processor' 'of middle times' 'MB/s, clock' 'of middle times'
for name in $names; do
  before=$(times "$name" make)
  for task in print read; do
    after=$(times "$name" "$task")
    echo "$before $after" | awk -v name="$name" -v part="$task" -v bytes="$bytes" '
      function rate(from, to) { return to > from ? sprintf("%.0f", bytes / (to - from) / 1e6) : "-" }
      { printf "%-8s %-6s %16s %16s %16s %16s\n", name, part, rate($3, $7), rate($4, $8), rate($1, $5), rate($2, $6) }'
    before=$after
  done
done
