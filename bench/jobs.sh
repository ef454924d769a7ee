# For the scripts that time zramsim on jobs, which source this file with their own arguments: `program` is the program,
# `job` and `out` are the files of the job in work and of its output.

top=$(cd "$(dirname "${BASH_SOURCE[0]}")/.." && pwd) || exit 1
program=${1:-$top/crates/zramsim/out/zramsim}
if [ $# -eq 0 ]; then
  "$top/bin/zramsim" run </dev/null || exit 1
fi
folder=$(mktemp -d) || exit 1
trap 'rm -rf "$folder"' EXIT
job=$folder/job
out=$folder/out

clock=
[ -x /usr/bin/time ] && clock=/usr/bin/time

# Runs a command with the job as its input; leaves its seconds in `seconds`, and its peak memory in `peak`.
measure() {
  local from to
  peak=-
  from=$(date +%s%N)
  if [ -n "$clock" ]; then
    "$clock" -v -o "$folder/report" "$@" <"$job" >"$out"
  else
    "$@" <"$job" >"$out"
  fi
  to=$(date +%s%N)
  seconds=$(awk -v n=$((to - from)) 'BEGIN { printf "%.3f", n / 1e9 }')
  if [ -n "$clock" ]; then
    peak=$(awk '/Maximum resident/ { printf "%.1f", $NF / 1024 }' "$folder/report")
  fi
}
