#!/usr/bin/env bash
# Runs transfers among 64 accounts as one input of many windows, and tells bytes of memory a line and lines a second:
#   bench/windows.sh [LINES..]
# By default 10,000, 100,000 and 1,000,000 lines. The input is a file, and the replies are read as they come. The files lie in
# memory where the system has /dev/shm, so that syncs cost next to nothing. The memory is the peak of the whole process,
# and the bytes a line are that by the lines. It ends with 1 where a run doesn't answer each line.
top=$(cd "$(dirname "${BASH_SOURCE[0]}")/.." && pwd)
[ -n "${SILO:-}" ] || "$top/tools/build" </dev/null || exit 1
export PYTHONPATH=$top/bench
exec python3 - "$@" <<'END'
import os
import subprocess
import sys
import tempfile
import time

import runs

counts = [int(word) for word in sys.argv[1:]] or [10_000, 100_000, 1_000_000]
room = "/dev/shm" if os.path.isdir("/dev/shm") else None


def carried(lines):
    """How many replies come to these lines, in what time, and how many bytes of memory the process has at its peak."""
    with tempfile.TemporaryDirectory(dir=room) as folder:
        subprocess.run([runs.PROGRAM, folder, "init"], input=runs.bank(), check=True)
        with tempfile.TemporaryFile() as given:
            given.writelines(lines)
            given.seek(0)
            begun = time.monotonic()
            replies = peak = 0
            with subprocess.Popen([runs.PROGRAM, folder, "run", "--width", "64"], stdin=given, stdout=subprocess.PIPE) as it:
                while piece := it.stdout.read(1 << 16):
                    replies += piece.count(b"\n")
                    peak = max(peak, runs.peak(it.pid))
            return replies if it.returncode == 0 else None, time.monotonic() - begun, peak


failed = False
for count in counts:
    lines = runs.transfers(count)[:count]
    replies, seconds, peak = carried(lines)
    if replies != count:
        failed = True
        print(f"windows.sh: {replies} replies to {count} lines", file=sys.stderr)
    print(f"{count:,} lines: {count / seconds:,.0f} lines a second, {peak / 1e6:.0f} MB at the peak, {peak / count:.0f} bytes a line")
sys.exit(failed)
END
