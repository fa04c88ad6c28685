#!/usr/bin/env bash
# Times a run of N transfers over 64 accounts, with so many lines under way at a time, in a new silo:
#   bench/transfers.sh [N] [WIDTH] [PLACE]
# Where they aren't given N is 20,000, WIDTH 64, and PLACE /tmp. The silo stands in a new folder there; one on a memory file system has syncs
# that cost nothing.
# Prints the requests a second, the syncs, how long as many bare syncs take, each behind an append of 4 KiB in the same folder, the
# ratio of the two times, and the peak of the run's memory. The syncs are the opening's and, for each batch of the log, one for each
# file that it wrote and two of the log.
# Wanted at width 64: 20,000 transfers in at most 1.25 times the time of the bare syncs; 50,000 a second where syncs cost nothing; at
# 100,000 at most 1.1 times the time for each that it takes at 2,000.
# Measured quiet, on a processor of 2.7 GHz with a memory file system: 95,000 to 99,000 a second at 20,000, and 98,000 at 100,000.
# Measured beside other work, twice as much as the four processors carry: 14 to 21 us of processor time for each transfer at width 64
# where syncs cost nothing. bench/peers.py has SQLite beside it.
# What holds a transfer, by callgrind over 3,064 of them at width 64: 150,000 instructions each, of which
#   23,000 are the core: its events, its looks, and what it asks of grains, units and batches
#   22,000 clear room, 16,000 of them the 16 KiB in which a line is read (callgrind counts each byte; by samples it is 2 % of the time)
#   18,000 are the standard library, without trees, 12,000 look grains up in trees, 16,000 allocate and free, about 60 times, 13,000 copy
#   13,000 run the script, 13,000 are the settler, the log and the host, 7,000 read the line and write the reply, 7,000 choose who
#   moves, 5,000 are the agents
# By samples a seventh of the time is the system's: the file of each grain that a batch wrote is looked for by its name, written and synced.
top=$(cd "$(dirname "${BASH_SOURCE[0]}")/.." && pwd)
[ -n "${SILO:-}" ] || "$top/tools/build" </dev/null || exit 1
export PYTHONPATH=$top/bench:$top/examples/reader
exec python3 - "$@" <<'END'
import os, subprocess, sys, tempfile, time

import read
import runs

count, width, place = runs.words("20000", "64", "/tmp")
lines = runs.transfers(int(count))

with tempfile.TemporaryDirectory(dir=place) as room:
    folder = runs.new_bank(room)
    names = [os.path.join(room, name) for name in ("requests", "replies")]
    with open(names[0], "wb") as file:
        file.write(b"".join(lines))
    with open(names[0], "rb") as given, open(names[1], "wb") as replies:
        before = runs.processor()
        begun, peak = time.monotonic(), 0
        running = subprocess.Popen([runs.PROGRAM, folder, "run", "--width", width], stdin=given, stdout=replies)
        while running.poll() is None:
            peak = max(peak, runs.peak(running.pid))
            time.sleep(0.005)
        took = time.monotonic() - begun
    if running.returncode != 0:
        sys.exit(f"transfers.sh: the run ended with {running.returncode}")
    user, system = (after - earlier for after, earlier in zip(runs.processor(), before))
    with open(names[1], "rb") as file:
        replies = file.read().split(b"\n")[:-1]
    if len(replies) != len(lines):
        sys.exit(f"transfers.sh: {len(replies)} replies to {len(lines)} requests")
    aborted = sum(b'"aborted"' in reply for reply in replies)
    with open(os.path.join(folder, "manager-0.otx"), "rb") as file:
        manager = file.read()
    with open(os.path.join(folder, "program-0.otx"), "rb") as file:
        types = read.types_of(file.read()[4:])
    batches, syncs = 0, 1
    for is_block, body in read.bodies_of("manager-0.otx", manager, read.FORMATS[manager[1:9]]):
        if is_block:
            body.session(lambda session: session > 0)
            records = [read.record_of(body, types) for _ in range(body.number("I"))]
            grains = {grain for _, _, writes in records for grain, _, _ in writes}
            batches, syncs = batches + 1, syncs + len(grains) + 2
    appended = os.open(os.path.join(folder, "appended"), os.O_WRONLY | os.O_CREAT | os.O_APPEND)
    piece = bytes(4096)
    begun = time.monotonic()
    for _ in range(syncs):
        os.write(appended, piece)
        os.fdatasync(appended)
    bare = time.monotonic() - begun
    print(f"{len(lines)} requests at width {width} in {took:.2f} s: {len(lines) / took:.0f} a second, {aborted} aborted; "
          f"{1e6 * user / len(lines):.1f} us of user time and {1e6 * system / len(lines):.1f} us of the system's each")
    print(f"{batches} batches, {syncs} syncs; as many bare ones took {bare:.2f} s: ratio {took / bare:.2f}; peak {peak // 1024} kB")
END
