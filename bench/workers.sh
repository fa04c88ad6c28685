#!/usr/bin/env bash
# Times runs of N transfers over 64 accounts that worker threads carry, beside the same on one thread with 64 lines in flight:
#   bench/workers.sh [N] [PLACE] [FREE]
# Each run has a new silo: in a folder at PLACE (/tmp), where syncs are real, and in one at FREE (/dev/shm), a memory file system, where
# they cost nothing. Prints for each the transfers a second, the processor time that the run spent, and how many were aborted.
# Fails where a run doesn't end with 0, leaves a line without a reply, or makes or loses money.
# Wanted where syncs are free: 2 workers at least 1.3 times as many a second as 1, on four processors; and no run with more than 1.5
# times the processor time of the run on one thread. Of seven runs one gave the first, and two the second (docs/OPERATIONS.md). By samples
# the thread that settles runs 92 to 100 % of the time, whatever the number of workers, since it does four of a transfer's ten events and
# every call on a file: that holds them. All threads reach the core by one turn, which a transfer takes 19 times: of all samples 15 %
# wait for it by one worker, 24 % by two and 26 % by four. More threads wait more, and waiting takes processors.
top=$(cd "$(dirname "${BASH_SOURCE[0]}")/.." && pwd)
[ -n "${SILO:-}" ] || "$top/tools/build" </dev/null || exit 1
export PYTHONPATH=$top/bench
exec python3 - "$@" <<'END'
import json, subprocess, sys, tempfile, time

import runs

count, real, free = runs.words("20000", "/tmp", "/dev/shm")
lines = runs.transfers(int(count))
given = b"".join(lines)

def fail(text):
    sys.exit(f"workers.sh: {text}")

def timed(place, words):
    with tempfile.TemporaryDirectory(dir=place) as room:
        folder = runs.new_bank(room)
        before, begun = sum(runs.processor()), time.monotonic()
        ran = subprocess.run([runs.PROGRAM, folder, "run", *words], input=given, stdout=subprocess.PIPE)
        took, spent = time.monotonic() - begun, sum(runs.processor()) - before
        if ran.returncode != 0:
            fail(f"a run with {' '.join(words)} ended with {ran.returncode}")
        replies = [json.loads(reply) for reply in ran.stdout.split(b"\n")[:-1]]
        if sorted(reply["n"] for reply in replies) != list(range(1, len(lines) + 1)):
            fail(f"a run with {' '.join(words)} left a line without its one reply")
        shown = subprocess.run([runs.PROGRAM, folder, "show"], stdout=subprocess.PIPE, check=True).stdout.split(b"\n")[:-1]
        states = [json.loads(line) for line in shown]
        deposited = sum(1000 for reply in replies if reply["n"] <= 64 and "reply" in reply)
        if sum(state["fields"]["balance"] for state in states if "grain" in state) != deposited:
            fail(f"a run with {' '.join(words)} made or lost money")
        return took, spent, sum("aborted" in reply for reply in replies)

for name, place in (("real", real), ("free", free)):
    rates, times = {}, {}
    for words in (["--width", "64"], ["--workers", "1"], ["--workers", "2"], ["--workers", "4"]):
        took, spent, aborted = min(timed(place, words) for _ in range(3))
        label = " ".join(words)
        rates[label], times[label] = len(lines) / took, spent
        print(f"{name} syncs, {label}: {len(lines) / took:.0f} a second, {spent:.2f} s of processor time, {aborted} aborted")
    print(f"{name} syncs: 2 workers carry {rates['--workers 2'] / rates['--workers 1']:.2f} times as many a second as 1; "
          f"at most {max(times.values()) / times['--width 64']:.2f} times the processor time of one thread")
END
