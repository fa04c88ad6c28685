"""Folders of format 1: every command but `migrate` says so and leaves them alone, and `migrate` gives them format 2, with the very same log; a
kill at any time leaves the old silo or the new one. And what format 2 adds: sessions, longer texts and more fields."""
import json
import os
import random
import shutil
import tempfile
import time

from harness import BANK, Rows, deposit, files, held, kill_after, line, little, make_old, run, says, silent, silo_folder

KILLS = 100
GRAINS = 200
OLD, NOT_OLD = says(14, b"old format"), says(15, b"not an old format")

# The bank whose accounts have a limit too.
LIMIT = BANK.replace(b"  field balance = 0;\n", b"  field balance = 0;\n  field limit = 7;\n")
NOTES = b'type note { field text = ""; method keep(t) createorjoin update { set text = t; return 1; } method get() createorjoin read { return text; } }'

rows = Rows("migrate")


def sessions(folder):
    """The session of each printed line of the history."""
    return [json.loads(line)["session"] for line in run(folder, "history").output.splitlines()]


def told(folder):
    """What the reports say, each entry's session as 1: so all blocks of format 1 count."""
    lines = [{**json.loads(line), "session": 1} for line in run(folder, "history").output.splitlines()]
    return run(folder, "show"), lines, run(folder, "audit")


def program_of(fields):
    """A program of one type with so many fields, and a method that sets one of them."""
    listed = " ".join(f"field f{at} = {at};" for at in range(fields))
    return f"type wide {{ {listed} method put(n) createorjoin update {{ set f0 = n; return f{fields - 1}; }} }}".encode()


def look(room):
    """One deposit: what each command says, the bytes, and what each says then."""
    one = silo_folder(room, "one", BANK, deposit(5))
    known, block = told(one), held(one, "manager-0.otx")[15:]
    make_old(one)
    before = files(one)
    rows.row("its manager file in format 1", len(before["manager-0.otx"]), 89)
    for word, given in (("run", b""), ("run", deposit(1)), ("show", b""), ("history", b""), ("audit", b""), ("compact", b""), ("upgrade", BANK)):
        rows.row(f"{word} of it", run(one, word, given=given), OLD)
    rows.row("init of it", run(one, "init", given=BANK), says(8, b"already a silo"))
    rows.row("load of it", run(one, "load", "2", "7"), says(8, b"already a silo"))
    rows.row("upgrade to none of it", run(one, "upgrade", given=b"type a {"), says(10, b"bad program at 8"))
    rows.row("words behind it", run(one, "migrate", "now"), says(2, b"bad use"))
    rows.row("its files", files(one), before)
    rows.row("migrate", run(one, "migrate", given=deposit(1)), silent())
    made = {"manager-1.otx": b"\1OTXLOG02" + little(1, 4) + b"\0\0" + block, "program-1.otx": before["program-0.otx"], "grain-1-0-1.otx": before["grain-0-0-1.otx"]}
    rows.row("its bytes", files(one), {**before, **made})
    rows.row("its manager file", len(held(one, "manager-1.otx")), 97)
    rows.row("what it stands for", told(one), known)
    rows.row("migrate again", run(one, "migrate"), NOT_OLD)
    rows.row("its files then", files(one), {**before, **made})
    rows.row("a text that is too long", run(one, "run", given=line("account/1.deposit", "x" * 4097)), silent(b'{"bad":"args","n":1}\n'))
    run(one, "run", given=deposit(1))
    rows.row("the next session", sessions(one), [1, 2])


def refuse(room):
    """What isn't written anew."""
    none = os.path.join(room, "none")
    os.mkdir(none)
    rows.row("migrate of no silo", run(none, "migrate"), says(7, b"not a silo"))
    rows.row("migrate of no folder", run(os.path.join(room, "missing"), "migrate"), says(7, b"not a silo"))
    one = silo_folder(room, "refused", BANK, deposit(5))
    cut = held(one, "manager-0.otx")[:20]
    for old, wanted in ((False, NOT_OLD), (True, says(9, b"damaged manager-0.otx at 16"))):
        with open(os.path.join(one, "manager-0.otx"), "wb") as file:
            file.write(cut.replace(b"02", b"01") if old else cut)
        rows.row("migrate of a damaged silo", run(one, "migrate"), wanted)
        rows.row("a run over it", run(one, "run"), OLD if old else says(9, b"damaged manager-0.otx at 16"))
    last = silo_folder(room, "last", BANK, deposit(5))
    make_old(last)
    with open(os.path.join(last, "manager-0.otx"), "r+b") as file:
        file.seek(9)
        file.write(b"\xff" * 4)
    before = files(last)
    rows.row("migrate of the last generation", run(last, "migrate"), says(12, b"last generation"))
    rows.row("its files", files(last), before)
    odd = silo_folder(room, "odd", BANK, deposit(5))
    make_old(odd)
    os.mkdir(os.path.join(odd, "program-1.otx"))
    rows.row("migrate over no file", run(odd, "migrate"), says(6, b"disk fault in program-1.otx"))
    rows.row("it stays", run(odd, "show"), OLD)
    os.rmdir(os.path.join(odd, "program-1.otx"))
    rows.row("migrate again", run(odd, "migrate"), silent())


def carry(room):
    """Logs of each kind: nothing yet, children, a checkpoint, upgrades before and behind it, and stale files in the other slot."""
    kinds = {}
    kinds["nothing"] = silo_folder(room, "nothing", BANK)
    kinds["children"] = silo_folder(room, "children", BANK, deposit(500), line("teller/0.transfer", 1, 2, 5) * 3)
    kinds["a checkpoint"] = silo_folder(room, "checkpoint", BANK, deposit(5), deposit(7, 2))
    run(kinds["a checkpoint"], "compact")
    kinds["blocks behind a checkpoint"] = silo_folder(room, "behind", BANK, deposit(5))
    run(kinds["blocks behind a checkpoint"], "compact")
    run(kinds["blocks behind a checkpoint"], "run", given=deposit(1) + deposit(2, 9))
    kinds["upgrades"] = silo_folder(room, "upgrades", BANK, deposit(5))
    for text in (LIMIT, BANK, LIMIT.replace(b"7", b"9")):
        run(kinds["upgrades"], "upgrade", given=text)
        run(kinds["upgrades"], "run", given=deposit(1) + deposit(1, 3))
    kinds["an upgrade last"] = silo_folder(room, "upgraded", BANK, deposit(5))
    run(kinds["an upgrade last"], "upgrade", given=LIMIT)
    kinds["stale files"] = silo_folder(room, "stale", BANK, b"".join(deposit(1, account) for account in range(1, 30)))
    for _turn in range(3):
        run(kinds["stale files"], "compact")
    for what, folder in kinds.items():
        known, entries = told(folder), len(run(folder, "history").output.splitlines())
        make_old(folder)
        rows.row(f"{what}: a run before", run(folder, "run", given=deposit(1)), OLD)
        rows.row(f"{what}: migrate", run(folder, "migrate"), silent())
        rows.row(f"{what}: what it stands for", told(folder), known)
        rows.row(f"{what}: its sessions", sessions(folder), [1] * entries)
        rows.row(f"{what}: a run behind it", run(folder, "run", given=deposit(1)).number, 0)
        rows.row(f"{what}: its session", sessions(folder)[entries:], [2 if what != "nothing" else 1])
        rows.row(f"{what}: migrate again", run(folder, "migrate"), NOT_OLD)
        known = told(folder)
        rows.row(f"{what}: compact", (run(folder, "compact"), run(folder, "show"), run(folder, "audit")), (silent(), known[0], known[2]))


def widen(room):
    """What format 2 has room for, and format 1 hasn't: texts of 257 to 4,096 bytes, and types of 17 to 64 fields."""
    notes = silo_folder(room, "notes", NOTES)
    for unit, size in ((1, 256), (3, 257), (5, 4096)):
        text = "é" * (size // 2) + "x" * (size % 2)
        rows.row(f"a text of {size}", run(notes, "run", given=line("note/1.keep", text)), silent(b'{"n":1,"reply":1,"unit":%d}\n' % unit))
        rows.row(f"it comes back, {size}", len(json.loads(run(notes, "run", given=line("note/1.get")).output)["reply"].encode()), size)
    rows.row("a text over the limit", run(notes, "run", given=line("note/1.keep", "x" * 4097)), silent(b'{"bad":"args","n":1}\n'))
    rows.row("what is shown", len(json.loads(run(notes, "show").output.splitlines()[0])["fields"]["text"].encode()), 4096)
    rows.row("a session a run", sessions(notes), list(range(1, 7)))
    rows.row("its audit", run(notes, "audit"), silent(b'{"count":6,"first_bad":null}\n'))
    make_old(notes)
    # The text's length, behind the open gate, the length, the unit, the origin, the call's head and the argument's tag.
    rows.row("a text of 257 in format 1", run(notes, "migrate"), says(9, b"damaged manager-0.otx at %d" % long_text(held(notes, "manager-0.otx"))))
    for fields, wanted in ((16, silent()), (17, says(9, b"damaged grain-0-0-1.otx at 8")), (64, says(9, b"damaged grain-0-0-1.otx at 8"))):
        wide = silo_folder(room, f"wide-{fields}", program_of(fields), line("wide/1.put", 3))
        rows.row(f"{fields} fields", run(wide, "run", given=line("wide/1.put", 4)), silent(b'{"n":1,"reply":%d,"unit":2}\n' % (fields - 1)))
        make_old(wide)
        rows.row(f"{fields} fields in format 1", run(wide, "migrate"), wanted)
    rows.row("65 fields", run(silo_folder(room, "wider", b""), "upgrade", given=program_of(65)), says(10, b"bad program at %d" % (program_of(65).index(b"f64 "))))


def long_text(manager):
    """Where the first text of over 256 bytes has its length, in a manager file of format 1."""
    return manager.index(b"\1" + little(257, 2)) + 1


def kill(room):
    """A kill at random moments: each leaves the old silo or the new one, with the same states and count."""
    template = silo_folder(room, "template", BANK, b"".join(deposit(7, account) for account in range(1, GRAINS + 1)))
    wanted = run(template, "show")
    make_old(template)
    kept = os.path.join(room, "kept")
    shutil.copytree(template, kept)
    began = time.time()
    run(kept, "migrate")
    longest, wrong, seen, draws = time.time() - began, [], set(), random.Random(7)
    shutil.rmtree(kept)
    shutil.copytree(template, kept)
    for turn in range(KILLS):
        kill_after(draws.uniform(0, 1.1 * longest), kept, "migrate")
        shown = run(kept, "show")
        seen.add(shown.number)
        if shown not in (OLD, wanted):
            wrong.append(f"kill {turn}: {shown}")
            break
        if shown == wanted:
            if run(kept, "audit") != silent(b'{"count":%d,"first_bad":null}\n' % GRAINS):
                wrong.append(f"kill {turn}: the log doesn't replay")
            shutil.rmtree(kept)
            shutil.copytree(template, kept)
    rows.row(f"{KILLS} kills", wrong, [])
    rows.row("a kill before it, and one behind it", seen, {0, 14})
    rows.row("migrate in the end", run(kept, "migrate"), silent())
    rows.row("states in the end", run(kept, "show"), wanted)


with tempfile.TemporaryDirectory() as shared:
    look(shared)
    refuse(shared)
    carry(shared)
    widen(shared)
    kill(shared)

rows.end()
