#!/usr/bin/env bash
# Prints one page of figures, all of one run of this script on this machine:
#   bench/all.sh [TRANSFERS] [GRAINS] [REAL] [FREE]
# - which processor, how many, and how much memory;
# - TRANSFERS (20,000) among 64 accounts at widths 1, 8 and 64, at REAL (/tmp), where syncs are real, beside as many bare ones, and at FREE
#   (/dev/shm), a memory file system, where they cost nothing;
# - the same by 1, 2 and 4 workers;
# - the same in SQLite, by Python's module, with a commit for each and with 64 in one;
# - whole processes: one line, an opening, an audit, the largest programs;
# - a silo of GRAINS (1,000,000), its opening, and a run that reads 5,000 of them;
# - inputs of 10,000 to 1,000,000 lines, with the memory that they take;
# - compactions of 10,000 and 100,000 records, and the openings before and behind them.
# The other scripts here make it, each of which can be run alone and says what is wanted. It takes a quarter of an hour. What else runs
# beside it counts, and is told at the head by the system's load. It ends with 1 where one of them does. SILO names another program.
top=$(cd "$(dirname "${BASH_SOURCE[0]}")/.." && pwd)
count=${1:-20000} grains=${2:-1000000} real=${3:-/tmp} free=${4:-/dev/shm}
[ -n "${SILO:-}" ] || "$top/tools/build" </dev/null || exit 1
export SILO=${SILO:-$top/crates/silo/out/silo}
failed=0

# A heading, and what a script prints, a bit further in.
part() {
  printf '\n%s\n' "$1"
  shift
  "$@" 2>&1 | sed 's/^/  /'
  [ "${PIPESTATUS[0]}" -eq 0 ] || failed=1
}

widths() {
  local width failed=0
  for width in 1 8 64; do
    "$top/bench/transfers.sh" "$count" "$width" "$1" || failed=1
  done
  return "$failed"
}

model=$(sed -n 's/^model name[[:space:]]*: //p' /proc/cpuinfo | head -n 1)
memory=$(awk '/^MemTotal/ { printf "%.0f GB", $2 / 1e6 }' /proc/meminfo)
echo "$(nproc) processors (${model:-of no name}), $memory; $(date -u +%F), load $(cut -d' ' -f1 /proc/loadavg)"
part "Transfers, real syncs" widths "$real"
part "Transfers, free syncs" widths "$free"
part "Workers" "$top/bench/workers.sh" "$count" "$real" "$free"
part "Beside SQLite" "$top/bench/peers.py" "$count" "$real" "$free"
part "Whole processes" "$top/bench/starts.py" 100000 "$real" "$free"
part "Grains on first use" "$top/bench/first_use.sh" "$grains" 5000 "$real" "$free"
part "Long inputs" "$top/bench/windows.sh"
part "Compaction, real syncs" "$top/bench/compact.py" "$real" 1000 10000 10000 100000
exit "$failed"
