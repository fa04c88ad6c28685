"""Each benchmark over the program runs through, with inputs as small as it takes: no time that it prints is looked at, and no memory."""
import os
import subprocess
import tempfile

from harness import PROGRAM, TOP, Rows, can_trace

# They end with 1 where a figure isn't what is wanted, which hangs on what else the machine does.
MAY_MISS = ("fairness.sh",)

rows = Rows("benches")

with tempfile.TemporaryDirectory() as room:
    for name, *words in [
        ("transfers.sh", "100", "1", room),
        ("transfers.sh", "100", "64", room),
        ("workers.sh", "100", room, room),
        ("peers.py", "100", room, room),
        ("starts.py", "200", room, room),
        ("first_use.sh", "100", "10", room, room, "100"),
        ("windows.sh", "100"),
        ("compact.py", room, "10", "100"),
        ("upgrades.py", "100", "2"),
        ("load.sh", "100", room),
        ("kill.sh", "1", "50", "8"),
        ("fairness.sh", "1", room),
        ("check.sh", "100"),
        *([("calls.sh", "100", "64")] if can_trace() else []),
    ]:
        bench, env = os.path.join(TOP, "bench", name), {**os.environ, "SILO": PROGRAM}
        done = subprocess.run([bench, *words], env=env, stdin=subprocess.DEVNULL, capture_output=True, timeout=1200)
        ended = 0 if done.returncode == 1 and name in MAY_MISS else done.returncode
        rows.row(" ".join([name, *words]), (ended, done.stderr.decode(), any(map(str.isdigit, done.stdout.decode()))), (0, "", True))

rows.end()
