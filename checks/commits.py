"""`check` over real folders: its line, its numbers, and that it leaves folder and input alone. The lines are those of plain_silos.py; the
one of 10,000 starts was computed by it once, since that takes it ten seconds.
"""
import os
import random
import tempfile

from harness import BANK, Rows, deposit, files, run, says, silent, silo_folder
from plain_silos import line

rows = Rows("commits")
LARGEST = (1 << 64) - 1


with tempfile.TemporaryDirectory() as room:
    empty = os.path.join(room, "empty")
    os.mkdir(empty)

    def check(starts, seed, **around):
        return run(empty, "check", str(starts), str(seed), **around)

    # Its line, which is the same each time.
    rows.row("no start", check(0, 1), silent(b'{"aborted":0,"committed":0,"requests":0,"total":64000,"undecided":0}\n'))
    for _ in range(2):
        rows.row("1,000 starts", check(1000, 7), silent(b'{"aborted":929,"committed":71,"requests":1000,"total":64000,"undecided":0}\n'))
    rows.row("10,000 starts", check(10_000, 7), silent(b'{"aborted":9390,"committed":610,"requests":10000,"total":64000,"undecided":0}\n'))
    drawn = random.Random(43)
    for starts, seed in [(1, 0), (1, LARGEST), *((drawn.randrange(2, 200), drawn.randrange(1 << 64)) for _ in range(40))]:
        rows.row(f"check {starts} {seed}", check(starts, seed), silent(line(starts, seed)))

    # 2: numbers out of their bounds or spelled otherwise, one missing, one too many, and options.
    for words in (["10001", "7"], ["7"], [], ["1", "2", "3"], ["01", "7"], ["+1", "7"], ["1", "-7"], ["1", str(LARGEST + 1)], ["1", ""],
                  ["1", "7", "--width", "2"], ["--width=2", "1", "7"], ["1", "7", "--workers=2"], ["--", "1", "7"]):
        rows.row(f"words {words}", run(empty, "check", *words), says(2, b"bad use"))

    # 3: no memory. Nothing is written. A check of 10,000 starts keeps 200,000 packets.
    starts = [megabytes << 20 for megabytes in range(5, 15) if run(empty, "check", "0", "1", memory=megabytes << 20).number == 0]
    if starts:
        rows.row("memory that doesn't suffice", check(10_000, 7, memory=starts[0]), says(3, b"no memory"))
    else:
        print("commits: the program doesn't start in little memory, so 3 isn't shown")

    # 5: the output can't be written.
    rows.row("a closed output", check(1, 0, closed=(1,)), says(5, b"write fault"))
    if os.path.exists("/dev/full"):
        with open("/dev/full", "wb") as full:
            rows.row("an output on a full device", check(1, 0, streams={"stdout": full}), says(5, b"write fault"))

    # Any folder does, and none is used: an empty one, one that isn't there, a file, and a silo, which stay as they are.
    rows.row("an empty folder", os.listdir(empty), [])
    missing = os.path.join(room, "missing")
    rows.row("a folder that isn't there", run(missing, "check", "1", "0"), silent(line(1, 0)))
    rows.row("a folder that isn't there: afterwards", os.path.exists(missing), False)
    rows.row("a file", run(__file__, "check", "1", "0"), silent(line(1, 0)))
    shop = silo_folder(room, "shop", BANK, deposit(5))
    before = files(shop)
    rows.row("a silo", run(shop, "check", "1", "0"), silent(line(1, 0)))
    rows.row("a silo: afterwards", files(shop), before)

    # No input is read: all of it is left, and one that can't be read does no harm.
    with tempfile.TemporaryFile() as given:
        given.write(deposit(5))
        given.seek(0)
        rows.row("an input", check(1, 0, streams={"stdin": given}), silent(line(1, 0)))
        rows.row("an input: afterwards", given.seek(0, os.SEEK_CUR), 0)
    rows.row("a closed input", check(1, 0, closed=(0,)), silent(line(1, 0)))

rows.end()
