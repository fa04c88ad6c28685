#!/usr/bin/env python3
"""Times a silo that is written anew, and its openings before and behind:  bench/compact.py [PLACE] [GRAINS RECORDS]..

Each folder is made by docs/FORMATS.md alone, beneath PLACE (the folder for temporary files where none is given): so many records, a
block each, of deposits on so many grains in turn. Then the built program opens it, by a run without lines, writes it anew three times,
and opens it again. Told are the seconds and the most memory of each, and the bytes of the two manager files. It ends with 1 where one of
these fails. Where SILO names a program, that one is timed.
"""
import os
import struct
import subprocess
import sys
import tempfile

import runs

sys.path.insert(0, os.path.join(runs.TOP, "checks"))
from harness import FIRST_PROGRAM  # noqa: E402


def integer(number):
    return b"\0" + struct.pack("<q", number)


def make(folder, grains, records):
    """A folder of so many records, of which record r is unit r, a deposit of 5 on account r modulo the number of grains."""
    text = FIRST_PROGRAM.encode()
    with open(os.path.join(folder, "program-0.otx"), "wb") as file:
        file.write(struct.pack("<I", len(text)) + text)
    versions = [[] for _ in range(grains)]
    with open(os.path.join(folder, "manager-0.otx"), "wb") as file:
        file.write(b"\1OTXLOG02" + bytes(6))
        for unit in range(1, records + 1):
            key = unit % grains
            here = versions[key]
            balance = integer(5 * len(here) + 5)
            write = struct.pack("<HIQI", 0, key, 19 * len(here), 19)
            call = struct.pack("<HIHH", 0, key, 0, 1) + integer(5)
            record = struct.pack("<QBI", unit, 0, unit % 2**32) + call + struct.pack("<H", 0) + b"\1" + balance + struct.pack("<H", 1) + write
            body = struct.pack("<QI", 1, 1) + record
            file.write(b"\1" + struct.pack("<I", len(body)) + body)
            here.append(struct.pack("<QH", unit, 1) + balance)
        file.write(b"\0")
    for key, here in enumerate(versions):
        with open(os.path.join(folder, f"grain-0-0-{key}.otx"), "wb") as file:
            file.write(b"".join(here))


def timed(what, folder, *words):
    """Runs the program, and tells how long it took and how much memory it had at most."""
    taken = runs.taken_by((folder, *words), stdin=subprocess.DEVNULL, stdout=subprocess.DEVNULL)
    if taken.number != 0:
        sys.exit(f"compact.py: {' '.join(words)} ended with {taken.number}")
    print(f"  {what}: {taken.clock:.2f} s, of them {taken.processor:.2f} s of a processor; {taken.peak / 1e6:.0f} MB at most", flush=True)


words = sys.argv[1:]
place = words.pop(0) if len(words) % 2 else None
sizes = [(int(grains), int(records)) for grains, records in zip(words[::2], words[1::2])] or [(1000, 10_000), (10_000, 100_000)]
for grains, records in sizes:
    with tempfile.TemporaryDirectory(dir=place) as folder:
        make(folder, grains, records)
        os.sync()
        print(f"{grains} grains, {records} records", flush=True)
        timed("opened", folder, "run")
        for turn in ("first", "second", "third"):
            timed(f"written anew, the {turn} time", folder, "compact")
            timed("opened", folder, "run")
        sizes_of_logs = [os.path.getsize(os.path.join(folder, f"manager-{slot}.otx")) for slot in (0, 1)]
        print("  bytes of the manager files:", *sizes_of_logs, flush=True)
