#!/usr/bin/env bash
# Times the making and giving up of a zspage, and takes the peak memory of a pool that is filled once, and of one that is
# filled, emptied and filled again: the two peaks are one, since an empty zspage gives its frames back.
# With as many objects as fill whole zspages each further object makes a zspage, and its freeing gives it up.
set -u
source "$(dirname "$0")/timing.sh" bench_pool
rounds=${1:-100000}

printf '%8s %8s %28s\n' length cells 'ns to make and give up'
for cells in 32,256 400,10 1120,7 4096,1; do
  length=${cells%,*} count=${cells#*,}
  start=$(least_time 3 "$length" "$count" 0 0 0)
  whole=$(least_time 3 "$length" "$count" "$rounds" 0 0)
  awk -v length_="$length" -v count="$count" -v time=$((whole - start)) -v rounds="$rounds" \
    'BEGIN { printf "%8d %8d %28.1f\n", length_, count, time / rounds }'
done

# Kilobytes that a run of the program takes at most.
peak() {
  python3 - "$program" "$@" <<'PY'
import resource, subprocess, sys
subprocess.run(sys.argv[1:], stdout=subprocess.DEVNULL, check=True)
print(resource.getrusage(resource.RUSAGE_CHILDREN).ru_maxrss)
PY
}

if command -v python3 >/dev/null; then
  printf '\n%8s %8s %16s %16s %16s\n' length objects 'KiB, 1 filling' '2 fillings' '5 fillings'
  for length in 32 1120 4096; do
    printf '%8d %8d %16d %16d %16d\n' "$length" 10000 "$(peak "$length" 10000 0 0 1)" \
      "$(peak "$length" 10000 0 0 2)" "$(peak "$length" 10000 0 0 5)"
  done
fi
