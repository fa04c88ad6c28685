"""Folders whose silo is written anew: what its files hold, what later commands say, and that a kill at any time leaves what it stood for."""
import os
import random
import shutil
import tempfile
import time

from harness import BANK, Rows, ask, deposit, held, kill_after, line, little, read_states, reply, run, says, silent, silo_folder

KILLS = 100
GRAINS = 200

rows = Rows("compact")


def states(folder):
    """What `show` says, and what a reader of the bytes says of states and the next unit."""
    return run(folder, "show"), read_states(folder)


def first_bytes(folder):
    """The header gate and the generation of both manager files."""
    heads = [held(folder, f"manager-{slot}.otx")[:13] for slot in (0, 1)]
    return [(head[0], int.from_bytes(head[9:], "little")) for head in heads]


def live_of(heads):
    """The slot that such two headers say is live: the greater generation among the open ones, slot 0 where both are the same."""
    return max((slot for slot in (0, 1) if heads[slot][0] == 1), key=lambda slot: heads[slot][1])


with tempfile.TemporaryDirectory() as room:
    # One deposit: the checkpoint's bytes, and the version's.
    one = silo_folder(room, "one", BANK, deposit(5))
    before = states(one)
    rows.row("compact", run(one, "compact"), silent())
    named = little(0, 2) + little(1, 4) + little(0, 8) + little(19, 4)
    piece = b"\0" + little(1, 8) + little(2, 8) + little(1, 8) + little(1, 4) + named
    rows.row("its manager file", held(one, "manager-1.otx"), b"\1OTXLOG02" + little(1, 4) + b"\1\0" + b"\1" + little(47, 4) + piece + b"\0")
    rows.row("its program", held(one, "program-1.otx"), held(one, "program-0.otx"))
    rows.row("its version", held(one, "grain-1-0-1.otx"), held(one, "grain-0-0-1.otx"))
    rows.row("what it stands for", states(one), before)
    rows.row("its history", run(one, "history"), silent())
    rows.row("its audit", run(one, "audit"), silent(b'{"count":1,"first_bad":null}\n'))
    rows.row("a request behind it", run(one, "run", given=ask()), silent(reply(1, 5, 2)))

    # Twice: over longer files of two generations ago, whose blocks don't count any more.
    run(one, "run", given=b"".join(deposit(amount) for amount in range(1, 40)))
    before = states(one)
    old = [len(held(one, name)) for name in ("manager-1.otx", "grain-1-0-1.otx")]
    for turn in range(3):
        rows.row(f"compact again, {turn}", run(one, "compact"), silent())
        rows.row(f"what it stands for, {turn}", states(one), before)
        rows.row(f"its history, {turn}", run(one, "history"), silent())
    rows.row("no file got shorter", [len(held(one, name)) for name in ("manager-1.otx", "grain-1-0-1.otx")], old)
    rows.row("the generations", [held(one, f"manager-{slot}.otx")[9] for slot in (0, 1)], [4, 3])

    # Nothing was written yet, and a grain with its initial values was.
    none = silo_folder(room, "none", BANK)
    rows.row("compact of a new silo", run(none, "compact"), silent())
    rows.row("its length", len(held(none, "manager-1.otx")), 15 + 5 + 29 + 1)
    rows.row("a new silo's states", run(none, "show"), silent(b'{"count":0}\n'))
    run(none, "run", given=deposit(5) + line("account/1.withdraw", 5))
    run(none, "compact")
    rows.row("a grain with its initial values", run(none, "show"), silent(b'{"fields":{"balance":0},"grain":"account/1"}\n{"count":2}\n'))

    # A kill at random moments: each leaves the states and the count, with the old generation or the new one. Each tenth time the log is
    # played again, and a run goes on behind it.
    kept = silo_folder(room, "kept", BANK)
    run(kept, "run", "--width", "64", given=b"".join(deposit(7, account) for account in range(1, GRAINS + 1)))
    wanted = run(kept, "show").output
    run(kept, "compact")
    began = time.time()
    run(kept, "compact")
    longest = time.time() - began
    wrong, draws, units = [], random.Random(7), GRAINS
    amid = 0
    for turn in range(KILLS):
        before = first_bytes(kept)
        after = draws.uniform(0, longest)
        kill_after(after, kept, "compact")
        left = first_bytes(kept)
        # It had written, and not yet turned: so many at least, since one that goes on where another was killed may write the same.
        amid += left != before and live_of(left) == live_of(before)
        found = [(run(kept, "show"), silent(wanted))]
        if turn % 10 == 9:
            units += 1
            found.append((run(kept, "audit"), silent(b'{"count":%d,"first_bad":null}\n' % (units - 1))))
            found.append((run(kept, "run", given=deposit(7, 1)), silent(reply(1, 7 * (units - GRAINS + 1), units))))
            wanted = run(kept, "show").output
        wrong = [f"kill {turn}, after {after:.4f} s: {told}" for told, told_before in found if told != told_before]
        if wrong:
            break
    rows.row(f"{KILLS} kills", wrong, [])
    rows.row("kills amid", amid > 0, True)
    rows.row("compact in the end", run(kept, "compact"), silent())
    rows.row("states in the end", run(kept, "show"), silent(wanted))

    # What is no silo can't be written anew, nor one into whose other slot nothing can be written: it stays as it was.
    rows.row("compact of no folder", run(os.path.join(room, "missing"), "compact"), says(7, b"not a silo"))
    odd = os.path.join(room, "odd")
    shutil.copytree(kept, odd)
    other = 1 - live_of(first_bytes(odd))
    os.remove(os.path.join(odd, f"program-{other}.otx"))
    os.mkdir(os.path.join(odd, f"program-{other}.otx"))
    rows.row("compact over no file", run(odd, "compact"), says(6, b"disk fault in program-%d.otx" % other))
    rows.row("its states", run(odd, "show"), silent(wanted))

rows.end()
