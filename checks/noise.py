"""Workers under noise:  checks/noise.py [--all]

Runs by 2, 3 and 16 workers over one to three grains that all lines want, with transactions within transactions, on all processors and
on one alone. By a library (`checks/faults.c`, where there is a C compiler) the threads sleep or give their processor away at random
places, and wake for nothing; and a call on a file fails, or each one from there on, or memory is refused: at each call in turn
with `--all`, else at some of them. A run ends; each line has at most one reply, and one where the run ends with 0; what is
answered is in the log, which replays; no money is made or lost; and a later run goes on.
"""
import errno
import os
import random
import shutil
import sys
import tempfile

import kept
import shim
from harness import MEMORY, Rows, line, run

FILES = ".,0,1,manager-*,program-*,grain-*"
LINES = 60
# More than the replies that workers may be ahead of.
MANY = 700
# How many of a run's calls fail, each in a run of its own, in a check that isn't told to try all of them.
TRIES = 5
ALL = "--all" in sys.argv[1:]

rows = Rows("noise")


def lines_over(grains, draw, count=LINES):
    """Lines that want these few grains: transfers, some of them within another transaction."""
    lines = []
    for _ in range(count):
        call = draw.choice(["teller/0.transfer"] * 3 + ["mover/0.move", "mover/0.count", "mover/0.spoil", "account/0.read"])
        lines.append(line(call, *(() if call.endswith("read") else (draw.randrange(grains), draw.randrange(grains), draw.randrange(1, 20)))))
    return lines


with tempfile.TemporaryDirectory(dir=MEMORY) as room:
    library, noted = shim.build(room), os.path.join(room, "notes")
    if library is None:
        print("noise: there is no C compiler here, so no call fails")
    processors = [("all processors", None)]
    if hasattr(os, "sched_setaffinity"):
        processors.append(("one processor", {min(os.sched_getaffinity(0))}))
    draw = random.Random(7)
    aborted = 0
    for grains in (1, 2, 3):
        template = os.path.join(room, f"over{grains}")
        os.mkdir(template)
        kept.make(template, grains)
        before = kept.history(template)[0]
        for workers in (2, 3, 16):
            lines = lines_over(grains, draw)

            def carried(what, chosen, lines=lines, **settings):
                """A run in a copy of the silo, judged; and the calls that it made."""
                global aborted
                folder = os.path.join(room, "silo")
                shutil.copytree(template, folder)
                words = shim.words(library, **{"notes": noted, "names": FILES, "noise": draw.randrange(1, 1_000_000), **settings}) if library else {}
                ended = run(folder, "run", "--workers", str(workers), given=b"".join(lines), shim=words, on=chosen, seconds=60)
                calls = shim.notes(noted)
                failed = {call.name for call in calls if call.done == "fails"}
                rows.row(f"{workers} workers, {grains} grains, {what}", kept.judge(folder, before, lines, ended, failed, 1000 * grains), [])
                aborted += ended.output.count(b'"aborted":"lock"')
                shutil.rmtree(folder)
                if library:
                    os.remove(noted)
                return calls

            def some(count):
                return range(1, count + 1) if ALL else sorted(draw.sample(range(1, count + 1), min(TRIES, count)))

            for name, chosen in processors:
                calls = carried(name, chosen)
                carried(f"{name}, many lines", chosen, lines_over(grains, draw, MANY))
                if library is None:
                    continue
                for at in some(len(calls)):
                    carried(f"{name}, call {at} fails", chosen, at=at, fail=errno.EIO)
                    carried(f"{name}, each call from {at} on fails", chosen, at=at, fail=errno.EIO, on=1)
                asked = sum(call.kind == "memory" for call in carried(f"{name}, memory is counted", chosen, kinds="memory", names=None))
                for at in some(asked):
                    carried(f"{name}, memory is refused at {at}", chosen, kinds="memory", names=None, at=at, fail=errno.ENOMEM)
    rows.row("some units met", aborted > 0, True)

rows.end()
