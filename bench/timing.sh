# For the scripts that time a proved program, which source this file with the crate of the program: `program` is its path
# from the top of the repository, where the script then stands.

cd "$(dirname "${BASH_SOURCE[0]}")/.." || exit 1
program=crates/$1/out/$1
if [ ! -x "$program" ]; then
  echo "skipped: $program is missing; rt run in crates/$1 makes it"
  exit 0
fi

# Nanoseconds that one run of the program with these words takes.
run_time() {
  local start end
  start=$(date +%s%N)
  "$program" "$@" >/dev/null
  end=$(date +%s%N)
  echo $((end - start))
}

# The least of so many runs with these words: least_time RUNS WORD...
least_time() {
  local runs=$1
  shift
  for _ in $(seq "$runs"); do run_time "$@"; done | sort -n | head -1
}
