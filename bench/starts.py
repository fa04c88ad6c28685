#!/usr/bin/env python3
"""Times whole processes of the program, from their start to their end:
  bench/starts.py [RECORDS] [REAL] [FREE]
- `run` of one line on a silo of 64 grains, at REAL (/tmp), where syncs are real, beside as many bare syncs, and at FREE (/dev/shm), a
  memory file system, where they cost nothing;
- an opening of a log of RECORDS (100,000), 64 transactions in a block and one in each, at FREE, as `run` of no line; and `audit`;
- `init` of programs of 262,144 bytes, the largest, in the shapes of bench/language.sh;
- a unit of 10,000 steps with so many locals, which ends as a fault.
Each is timed several times, in turn, and the least is told, of the clock and of the processor's time. Where there is `strace`, the reads
(`pread64`) and looks (`statx`) of the openings and audits are told.
Wanted: one line in at most 5 ms beside its syncs; an opening in at most 1.6 microseconds a record, with at most one system call for each
65,536 bytes; an audit of 100,000 records in at most 0.5 s; each `init` in at most 0.2 s; a unit with 1,000 locals in at most twice the time
of one with a single local. docs/OPERATIONS.md has what was measured, and what holds an opening and an audit."""
import os
import re
import shutil
import subprocess
import sys
import tempfile
import time

import runs

count, real, free = runs.words("100000", "/tmp", "/dev/shm")
count = int(count)
DEPOSIT = b'{"args":[1],"call":"account/5.deposit"}\n'


def once(words, given=b"", wanted=0):
    """The seconds of a process, by the clock and of the processor."""
    with tempfile.TemporaryFile(dir=free) as lines:
        lines.write(given)
        lines.seek(0)
        begun = time.monotonic()
        ran = subprocess.Popen([runs.PROGRAM, *words], stdin=lines, stdout=subprocess.DEVNULL)
        _, status, used = os.wait4(ran.pid, 0)
        ran.returncode = 0
        if os.waitstatus_to_exitcode(status) != wanted:
            sys.exit(f"starts.py: {' '.join(words)} ended with {os.waitstatus_to_exitcode(status)}")
        return time.monotonic() - begun, used.ru_utime + used.ru_stime


def least(made, times):
    """The least of some readings, each by itself."""
    read = [made() for _ in range(times)]
    return tuple(min(column) for column in zip(*read))


def made_silo(place, width, lines):
    folder = os.path.join(place, f"silo-{width}-{len(lines)}")
    os.mkdir(folder)
    once([folder, "init"], runs.bank())
    once([folder, "run", "--width", width], b"".join(lines))
    return folder


def bare(folder, syncs):
    """The seconds of as many syncs, each behind an append of 4 KiB."""
    appended = os.open(os.path.join(folder, "appended"), os.O_WRONLY | os.O_CREAT | os.O_APPEND)
    begun = time.monotonic()
    for _ in range(syncs):
        os.write(appended, bytes(4096))
        os.fdatasync(appended)
    took = time.monotonic() - begun
    os.close(appended)
    return (took,)


def one_line():
    # The opening syncs the manager file, and the batch its grain's file and twice the manager file.
    for name, place in (("real", real), ("free", free)):
        with tempfile.TemporaryDirectory(dir=place) as room:
            folder = made_silo(room, "64", runs.transfers(0))
            took, spent = least(lambda: once([folder, "run"], DEPOSIT), 15)
            [syncs] = least(lambda: bare(room, 4), 15)
            print(f"run of one line, {name} syncs: {1e3 * took:.2f} ms, {1e3 * syncs:.2f} of these as many bare syncs; "
                  f"{1e3 * spent:.2f} ms of the processor")


def calls(words):
    """How many reads and looks a command makes."""
    if shutil.which("strace") is None:
        return "no strace"
    with tempfile.NamedTemporaryFile(dir=free) as told:
        traced = ["strace", "-f", "-c", "-o", told.name, runs.PROGRAM, *words]
        if subprocess.run(traced, stdin=subprocess.DEVNULL, stdout=subprocess.DEVNULL, stderr=subprocess.DEVNULL).returncode != 0:
            return "nothing can be traced"
        rows = [line.split() for line in told.read().decode().splitlines()]
    counts = {row[-1]: row[3] for row in rows if len(row) >= 5 and row[3].isdigit()}
    return ", ".join(f"{counts.get(name, 0)} {name}" for name in ("pread64", "statx", "openat"))


def opening():
    for width in ("64", "1"):
        with tempfile.TemporaryDirectory(dir=free) as room:
            folder = made_silo(room, width, runs.transfers(count))
            size = os.path.getsize(os.path.join(folder, "manager-0.otx"))
            took, spent = least(lambda: once([folder, "run"]), 5)
            print(f"opening of {count + 64} records and {size} bytes, width {width}: {took:.3f} s, "
                  f"{1e6 * spent / count:.2f} us of the processor a record; {calls([folder, 'run'])}")
            took, spent = least(lambda: once([folder, "audit"]), 3)
            print(f"audit: {took:.3f} s, {spent:.3f} s of the processor; {calls([folder, 'audit'])}")


def texts(room):
    """The texts of bench/language.sh, by the part of it that writes them."""
    with open(os.path.join(runs.TOP, "bench", "language.sh"), encoding="utf-8") as file:
        written = re.search(r"^python3 - \"\$work/texts\" <<'END'[^\n]*\n(.*?)^END$", file.read(), re.M | re.S)
    subprocess.run([sys.executable, "-", room], input=written[1].encode(), check=True)
    with open(os.path.join(room, "shapes"), encoding="utf-8") as file:
        return file.read().splitlines()


def programs():
    with tempfile.TemporaryDirectory(dir=free) as room:
        shapes = texts(room)

        def init(text):
            folder = tempfile.mkdtemp(dir=room)
            with open(os.path.join(room, text), "rb") as file:
                return once([folder, "init"], file.read()), folder

        for number, shape in enumerate(shapes):
            took, spent = least(lambda: init(f"shape-{number}-262144")[0], 3)
            print(f"init of 262,144 bytes, {shape}: {1e3 * took:.0f} ms, {1e3 * spent:.0f} ms of the processor")
        folders = {locals_: init(f"steps-{locals_}")[1] for locals_ in (1, 100, 1000)}
        line = b'{"args":[],"call":"t/0.m"}\n'
        for locals_, folder in folders.items():
            few, many = (least(lambda: once([folder, "run"], line * lines), 5)[1] for lines in (1, 21))
            print(f"a unit of 10,000 steps with {locals_} locals: {1e3 * (many - few) / 20:.2f} ms of the processor")


one_line()
opening()
programs()
