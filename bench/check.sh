#!/usr/bin/env bash
# Times `check N SEED` of the program, and `check` with a tenth of the starts:  bench/check.sh [N] [SEED]
# N is 10000 and SEED 7 where they aren't given. Prints the line, the seconds and the most memory of each of the two runs, and how
# many times as long the first took. Ends with 1 where 10,000 starts took more than 3 seconds or 100 MB.
# docs/TWO-SILOS.md ("Cost") has more figures, and the counts.
top=$(cd "$(dirname "${BASH_SOURCE[0]}")/.." && pwd)
[ -n "${SILO:-}" ] || "$top/tools/build" </dev/null || exit 1
exec python3 - "${SILO:-$top/crates/silo/out/silo}" "$@" <<'END'
import os, subprocess, sys, time

program = sys.argv[1]
starts = int(sys.argv[2]) if len(sys.argv) > 2 else 10_000
seed = sys.argv[3] if len(sys.argv) > 3 else "7"
SECONDS, MEGABYTES = 3, 100


def measured(count):
    """The line, the seconds, and the most memory in MB."""
    begun = time.monotonic()
    child = subprocess.Popen([program, ".", "check", str(count), seed], stdin=subprocess.DEVNULL, stdout=subprocess.PIPE)
    line = child.stdout.read()
    _, status, used = os.wait4(child.pid, 0)
    took = time.monotonic() - begun
    if status != 0:
        sys.exit(f"check.sh: check {count} {seed} ended with {os.waitstatus_to_exitcode(status)}")
    return line.decode().rstrip(), took, used.ru_maxrss / 1000


short = measured(starts // 10)
long = measured(starts)
for count, (line, took, memory) in ((starts // 10, short), (starts, long)):
    print(f"check {count} {seed}: {line}\n  in {took:.3f} s, with at most {memory:.0f} MB")
print(f"{starts} starts took {long[1] / short[1]:.1f} times as long as {starts // 10}")
if starts <= 10_000 and (long[1] > SECONDS or long[2] > MEGABYTES):
    sys.exit(f"check.sh: more than {SECONDS} s or {MEGABYTES} MB")
END
