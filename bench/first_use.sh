#!/usr/bin/env bash
# Times a silo of many written grains, its opening and a run that touches a few of them, and runs that use the same grains again and again:
#   bench/first_use.sh [GRAINS] [TOUCHED] [PLACE] [FREE] [TRANSFERS]
# The folder is made by docs/FORMATS.md alone, beneath PLACE (/tmp): of each of so many accounts (1,000,000) a version, in a file of its own,
# and a record, 64 in a block. It has a file a grain: some 4 KB of a disk each, and some minutes to make and to delete them.
# - the opening is a run of no line, three times;
# - TOUCHED accounts (5,000), spread over all, are read by a line each, and then the last 4,000 of them once more, in one run at width 64,
#   three times. Each of these runs adds its lines to the log;
# - so many TRANSFERS (20,000) among 64 accounts at width 64, and a `load` of as many at width 8, each five times in new silos at FREE
#   (/dev/shm), a memory file system where there is one, so that syncs cost nothing.
# Told is the least of each, of the clock and of the processor's time, the most memory that the process had, and the reads that the system
# counted (`/proc/PID/io`: lines and other files too, a few). The bytes a grain are those of the opening beyond an empty silo's; the reads of
# the touched ones are those beyond the opening's. It ends with 1 where a run isn't answered as it has to be. SILO names another program.
top=$(cd "$(dirname "${BASH_SOURCE[0]}")/.." && pwd)
[ -n "${SILO:-}" ] || "$top/tools/build" </dev/null || exit 1
export PYTHONPATH=$top/bench
exec python3 - "$@" <<'END'
import itertools
import json
import math
import os
import shutil
import struct
import sys
import tempfile
import time

import runs

grains, touched, place, free, count = runs.words("1000000", "5000", "/tmp", "", "20000")
grains, touched, count = int(grains), int(touched), int(count)
free = free or ("/dev/shm" if os.path.isdir("/dev/shm") else place)


def integer(number):
    return b"\0" + struct.pack("<q", number)


def make(folder):
    """A folder of so many accounts, each with a deposit of its own: unit k + 1 gave account k its k + 1."""
    text = runs.bank()
    with open(os.path.join(folder, "program-0.otx"), "wb") as file:
        file.write(struct.pack("<I", len(text)) + text)
    with open(os.path.join(folder, "manager-0.otx"), "wb") as manager:
        manager.write(b"\1OTXLOG02" + bytes(6))
        for first in range(0, grains, 64):
            keys = range(first, min(first + 64, grains))
            body = [struct.pack("<QI", 1, len(keys))]
            for key in keys:
                unit, balance = key + 1, integer(key + 1)
                version = struct.pack("<QH", unit, 1) + balance
                with open(os.path.join(folder, f"grain-0-0-{key}.otx"), "wb") as file:
                    file.write(version)
                call = struct.pack("<HIHH", 0, key, 0, 1) + balance
                write = struct.pack("<HIQI", 0, key, 0, len(version))
                body.append(struct.pack("<QBI", unit, 0, unit) + call + struct.pack("<H", 0) + b"\1" + balance + struct.pack("<H", 1) + write)
            whole = b"".join(body)
            manager.write(b"\1" + struct.pack("<I", len(whole)) + whole)
        manager.write(b"\0")


def once(words, given=b""):
    """Runs the program, and answers what it wrote and what it took."""
    with tempfile.TemporaryFile() as lines, tempfile.TemporaryFile() as output:
        lines.write(given)
        lines.seek(0)
        taken = runs.taken_by(words, stdin=lines, stdout=output)
        if taken.number != 0:
            sys.exit(f"first_use.sh: {' '.join(words)} ended with {taken.number}")
        output.seek(0)
        return output.read(), taken


def least(each):
    return runs.Taken(*(min(column) for column in zip(*each)))


def tell(what, taken, more=""):
    print(f"{what}: {taken.clock:.2f} s, of them {taken.processor:.2f} s of a processor; {taken.peak / 1e6:.1f} MB at most; "
          f"{taken.reads:,} reads{more}", flush=True)


def new_silo(room, *words, given=b""):
    """What a run in a new silo took, which is made beforehand where it is no `load`."""
    with tempfile.TemporaryDirectory(dir=room) as folder:
        if words[0] == "run":
            once((folder, "init"), runs.bank())
        return once((folder, *words), given)


# Accounts that lie far from one another, each once.
step = next(step for step in itertools.count(7919) if math.gcd(step, grains) == 1)
keys = [at * step % grains for at in range(min(touched, grains))]
keys += keys[-4000:]
asked = b"".join(b'{"args":[],"call":"account/%d.read"}\n' % key for key in keys)

with tempfile.TemporaryDirectory(dir=place) as room:
    folder = os.path.join(room, "silo")
    os.mkdir(folder)
    begun = time.monotonic()
    make(folder)
    print(f"{grains:,} grains, made in {time.monotonic() - begun:.0f} s", flush=True)
    empty = os.path.join(room, "empty")
    os.mkdir(empty)
    once((empty, "init"), runs.bank())
    none = least([once((empty, "run"))[1] for _ in range(3)])
    opened = least([once((folder, "run"))[1] for _ in range(3)])
    tell("opened", opened, f"; {(opened.peak - none.peak) / grains:.0f} bytes a grain")
    told = []
    for _ in range(3):
        text, taken = once((folder, "run", "--width", "64"), asked)
        told.append(taken)
        got = sorted((reply["n"], reply["reply"]) for reply in map(json.loads, text.splitlines()))
        if got != [(at + 1, key + 1) for at, key in enumerate(keys)]:
            sys.exit("first_use.sh: an account isn't answered as it was made")
    tell(f"{len(set(keys)):,} of them read, some twice", least(told), f", {least(told).reads - opened.reads:,} beyond an opening's")
    shutil.rmtree(folder)

lines, load = b"".join(runs.transfers(count)), ("load", str(count), "7", "--width", "8")
tell(f"{count:,} transfers at width 64", least([new_silo(free, "run", "--width", "64", given=lines)[1] for _ in range(5)]))
tell(" ".join(load), least([new_silo(free, *load)[1] for _ in range(5)]))
END
