#!/usr/bin/env bash
# Times a take of a lock with its give in a row on atomic words, and the making and shutting of a row by its length.
# A compare-and-exchange, two exchanges and a store are the floor; where there is a C compiler, they are timed by themselves.
# The work of making a row of five locks and starting threads is measured by a run without rounds, and taken off.
set -u
source "$(dirname "$0")/timing.sh" bench_lock_table
rounds=${1:-5000000}

# Nanoseconds a round: each WORD is the rounds of one thread.
per_round() {
  local spread=$1 one=$2 two=$3 three=$4 four=$5 setup whole
  setup=$(least_time 3 4 0 0 0 0 "$spread")
  whole=$(least_time 3 4 "$one" "$two" "$three" "$four" "$spread")
  awk -v time=$((whole - setup)) -v rounds="$one" 'BEGIN { printf "%.1f", time / rounds }'
}

printf '%-34s %22s\n' threads 'ns a take with its give'
printf '%-34s %22s\n' 'one' "$(per_round 1 "$rounds" 0 0 0)"
printf '%-34s %22s\n' 'two, each its own lock' "$(per_round 1 "$rounds" "$rounds" 0 0)"
printf '%-34s %22s\n' 'four, each its own lock' "$(per_round 1 "$rounds" "$rounds" "$rounds" "$rounds")"
printf '%-34s %22s\n' 'two, one lock' "$(per_round 0 "$rounds" "$rounds" 0 0)"
printf '%-34s %22s\n' 'four, one lock' "$(per_round 0 "$rounds" "$rounds" "$rounds" "$rounds")"

if command -v cc >/dev/null 2>&1; then
  floor=$(mktemp -d)
  trap 'rm -rf "$floor"' EXIT
  cat >"$floor/floor.c" <<'CODE'
#include <stdatomic.h>
#include <stdio.h>
#include <stdlib.h>
#include <time.h>
struct tags { void *items; unsigned long len, cap; };
int main(int count, char **words) {
  long rounds = count > 1 ? atol(words[1]) : 0;
  static _Atomic unsigned long word;
  static volatile struct tags slot;
  struct timespec a, b;
  clock_gettime(CLOCK_MONOTONIC, &a);
  for (long i = 0; i < rounds; i++) {
    unsigned long old = 0;
    atomic_compare_exchange_strong(&word, &old, 1);
    struct tags taken = slot;
    slot = (struct tags){0, 0, 0};
    slot = taken;
    atomic_store(&word, 0);
  }
  clock_gettime(CLOCK_MONOTONIC, &b);
  printf("%.1f\n", ((b.tv_sec - a.tv_sec) * 1e9 + (b.tv_nsec - a.tv_nsec)) / rounds);
}
CODE
  cc -O2 -o "$floor/floor" "$floor/floor.c" && printf '%-34s %22s\n' 'the four moves in C, one thread' "$("$floor/floor" "$rounds")"
fi

printf '\n%10s %24s %22s\n' locks 'ms to make and shut' 'peak memory in MiB'
for slots in 32768 65536 131072 262144; do
  time=$(least_time 3 "$slots" 0 0 0 0 0)
  peak=$( { /usr/bin/time -f %M "$program" "$slots" 0 0 0 0 0 >/dev/null; } 2>&1 )
  awk -v slots="$slots" -v time="$time" -v peak="$peak" \
    'BEGIN { printf "%10d %24.1f %22.1f\n", slots, time / 1000000, peak / 1024 }'
done
