#!/usr/bin/env bash
# Counts the system calls of an `init`, of a run of N transfers over 64 accounts, of a run that only opens its log, and of each report;
# needs strace:
#   [BEFORE=PROGRAM] bench/calls.sh [N] [WIDTH | --workers K]
# Calls for memory, threads and libraries aren't counted. Where BEFORE names a program, each line is a call, how often that program
# makes it, and how often the one here does; it fails where a command makes more calls in all than it did there, by more than 2.
# 1,000 transfers at width 64: 921 fdatasync, 920 pwrite64, 972 statx, 71 openat, a write a reply. Each file is opened once, as long as
# its handle is kept, and looked for by its name before a write, by one statx, unless it was written last. The log of these opens with
# a pread64 for each 65,536 bytes of it, one for the program's file and one for each grain's, 68 statx and 71 openat; 64 of the statx tell
# once of each grain's file whether it is a regular one. The reports read the log once more and put out a write a line, and `audit` reads
# each version; what still lies in a window takes no call.
top=$(cd "$(dirname "${BASH_SOURCE[0]}")/.." && pwd)
[ -n "${SILO:-}" ] || "$top/tools/build" </dev/null || exit 1
command -v strace >/dev/null || { echo "calls.sh: there is no strace here" >&2; exit 0; }
n=${1:-1000}
manner=(--width "${2:-1}")
[ "${2:-}" != --workers ] || manner=(--workers "${3:-2}")
export PYTHONPATH=$top/bench
exec python3 - "${BEFORE:-}" "$n" "${manner[@]}" <<'END'
import os, subprocess, sys, tempfile

import runs

before, count, manner = sys.argv[1], int(sys.argv[2]), sys.argv[3:]

# Calls by which a process gets memory, threads and its libraries, waits for another thread or ends.
ASIDE = {"execve", "brk", "mmap", "munmap", "mprotect", "mremap", "madvise", "arch_prctl", "set_tid_address", "set_robust_list", "rseq", "prlimit64",
         "access", "clone3", "clone", "futex", "sched_yield", "sched_getaffinity", "rt_sigprocmask", "rt_sigaction", "sigaltstack", "getrandom",
         "poll", "exit", "exit_group", "gettid", "getpid", "nanosleep", "clock_nanosleep", "prctl"}

def counted(program, folder, given, *words):
    """How often the program makes each call over this input."""
    with tempfile.NamedTemporaryFile() as told, tempfile.TemporaryFile() as lines:
        lines.write(given)
        lines.seek(0)
        ran = subprocess.run(["strace", "-f", "-qq", "-c", "-o", told.name, program, folder, *words], stdin=lines, stdout=subprocess.DEVNULL)
        if ran.returncode != 0:
            sys.exit(f"calls.sh: {' '.join(words)} ended with {ran.returncode}")
        rows = [row.split() for row in told.read().decode().splitlines()]
    # Rows of numbers have the count in the fourth place, and the name at the end.
    return {row[-1]: int(row[3]) for row in rows if len(row) >= 5 and row[3].isdigit() and row[-1] not in (*ASIDE, "total")}

def all_counts(program):
    """The counts of each command, over a new silo."""
    lines = runs.transfers(count)
    with tempfile.TemporaryDirectory() as room:
        folder = os.path.join(room, "silo")
        os.mkdir(folder)
        found = {"init": counted(program, folder, runs.bank(), "init")}
        subprocess.run([program, folder, "run", "--width", "64"], input=b"".join(lines[:64]), stdout=subprocess.DEVNULL, check=True)
        found[f"run {' '.join(manner)}, {count} transfers"] = counted(program, folder, b"".join(lines[64:]), "run", *manner)
        found["run, no line"] = counted(program, folder, b"", "run")
        for report in ("show", "history", "audit"):
            found[report] = counted(program, folder, b"", report)
    return found

now = all_counts(runs.PROGRAM)
old = all_counts(before) if before else None
more = []
for command, calls in now.items():
    print(f"{command}:")
    if old is None:
        print("  " + ", ".join(f"{number} {call}" for call, number in sorted(calls.items(), key=lambda it: -it[1])))
        continue
    then = old[command]
    for call in sorted({*calls, *then}, key=lambda it: -max(calls.get(it, 0), then.get(it, 0))):
        print(f"  {call}: {then.get(call, 0)} -> {calls.get(call, 0)}")
    total = sum(then.values()), sum(calls.values())
    print(f"  in all: {total[0]} -> {total[1]}")
    if total[1] > total[0] + 2:
        more.append(f"{command} makes {total[1]} calls in place of {total[0]}")
if more:
    sys.exit("calls.sh: " + "; ".join(more))
END
