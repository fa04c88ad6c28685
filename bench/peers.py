#!/usr/bin/env python3
"""Times N transfers over 64 accounts beside the same in SQLite, by Python's module, in one run:
  bench/peers.py [N] [REAL] [FREE]
The transfers are those of bench/transfers.sh. In SQLite each is one transaction: where the first account has the money, both rows change.
Timed are: in memory; in a file at FREE (/dev/shm), a memory file system, where syncs cost nothing; and in a file at REAL (/tmp), where
they are real, with a commit for each transfer and with 64 in one. The files have a write-ahead log and a full sync at each commit. Then
runs of the silo at width 64, at FREE and at REAL. Each is timed three times, in turn, and the best is told, with the ratio to its
peer. It fails where a row or a reply is missing, or money is made or lost. SQLite keeps the balances alone here; a silo keeps each call
with its reply too, reads its lines from a file and writes its replies to one, and its time is that of the whole process.
Wanted: at FREE at least 1.5 times as many a second as SQLite in memory, and at REAL at least as many as SQLite with a commit for each.
What holds the first: bench/transfers.sh has what a transfer is made of. What holds the second is the number of syncs: 64 transfers among
64 accounts write the files of some 56 grains, each of which is synced, and the log once, so 0.89 syncs for each (strace counts them), each of
another file; SQLite syncs its one log once for each."""
import os
import sqlite3
import subprocess
import sys
import tempfile
import time

import runs

count, real, free = runs.words("20000", "/tmp", "/dev/shm")
count = int(count)


def in_sqlite(path, in_one):
    """The seconds that the transfers take in SQLite, so many in one commit."""
    db = sqlite3.connect(path, isolation_level=None)
    if path != ":memory:":
        db.execute("PRAGMA journal_mode = WAL")
        db.execute("PRAGMA synchronous = FULL")
    db.execute("CREATE TABLE account (key INTEGER PRIMARY KEY, balance INTEGER NOT NULL)")
    db.executemany("INSERT INTO account VALUES (?, 1000)", [(key,) for key in range(64)])
    transfers = list(runs.drawn_transfers(count))
    run = db.execute
    begun = time.monotonic()
    for at, (one, other, amount) in enumerate(transfers):
        if at % in_one == 0:
            run("BEGIN")
        if run("UPDATE account SET balance = balance - ? WHERE key = ? AND balance >= ?", (amount, one, amount)).rowcount == 1:
            run("UPDATE account SET balance = balance + ? WHERE key = ?", (amount, other))
        if at % in_one == in_one - 1:
            run("COMMIT")
    if db.in_transaction:
        run("COMMIT")
    took = time.monotonic() - begun
    if db.execute("SELECT count(*), sum(balance) FROM account").fetchone() != (64, 64000):
        sys.exit("peers.py: SQLite made or lost money")
    db.close()
    return took


def in_file(place, in_one):
    with tempfile.TemporaryDirectory(dir=place) as room:
        return in_sqlite(os.path.join(room, "accounts"), in_one)


def in_silo(place):
    """The seconds that a run of them takes at width 64, opening and 64 deposits included."""
    with tempfile.TemporaryDirectory(dir=place) as room:
        folder = runs.new_bank(room)
        names = [os.path.join(room, name) for name in ("requests", "replies")]
        with open(names[0], "wb") as file:
            file.write(b"".join(runs.transfers(count)))
        with open(names[0], "rb") as given, open(names[1], "wb") as replies:
            begun = time.monotonic()
            subprocess.run([runs.PROGRAM, folder, "run", "--width", "64"], stdin=given, stdout=replies, check=True)
            took = time.monotonic() - begun
        with open(names[1], "rb") as file:
            if file.read().count(b"\n") != count + 64:
                sys.exit("peers.py: a line has no reply")
        shown = subprocess.run([runs.PROGRAM, folder, "show"], stdout=subprocess.PIPE, check=True).stdout
        if sum(int(line.split(b'"balance":')[1].split(b"}")[0]) for line in shown.split(b"\n") if b'"balance":' in line) != 64000:
            sys.exit("peers.py: the silo made or lost money")
        return took


ways = {
    "SQLite in memory": lambda: in_sqlite(":memory:", 1),
    "SQLite, free syncs, a commit each": lambda: in_file(free, 1),
    "silo, free syncs, width 64": lambda: in_silo(free),
    "SQLite, real syncs, a commit each": lambda: in_file(real, 1),
    "SQLite, real syncs, 64 in a commit": lambda: in_file(real, 64),
    "silo, real syncs, width 64": lambda: in_silo(real),
}
took = {name: [] for name in ways}
for _ in range(3):
    for name, way in ways.items():
        took[name].append(way())
best = {name: min(times) for name, times in took.items()}
for name in ways:
    print(f"{name}: {count / best[name]:.0f} a second, {1e6 * best[name] / count:.1f} us each")
for name, peer in (("silo, free syncs, width 64", "SQLite in memory"), ("silo, real syncs, width 64", "SQLite, real syncs, a commit each")):
    print(f"{name}: {best[peer] / best[name]:.2f} times as many a second as {peer}")
