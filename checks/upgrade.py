"""Folders whose program is upgraded: what the log holds then, what later commands say, what is refused and in which order, where damage in an
upgrade is named, and that a kill at any time leaves a silo with the upgrade or without it."""
import os
import random
import shutil
import tempfile
import time

from harness import BANK, Rows, ask, deposit, files, held, kill_after, little, read_states, reply, run, says, silent, silo_folder

PROGRAM_LIMIT = 262_144
KILLS = 100

# The bank whose accounts have a limit too, and one whose accounts begin with another balance.
LIMIT = BANK.replace(b"  field balance = 0;\n", b"  field balance = 0;\n  field limit = 7;\n")
THREE = BANK.replace(b"  field balance = 0;\n", b"  field balance = 3;\n")
# The bank's types without their methods, one of them alone, and both the other way round.
BARE = b"type account { field balance = 0; } type teller { }"
ONE_TYPE = b"type account { field balance = 0; } "
OTHER_WAY = b"type teller { } type account { field balance = 0; }"
MORE_TYPES = BARE + b" type more { field one = 1; }"

# Where the log ends that has the first deposit alone, and the first byte of the body of a block there, and of an upgrade's text. Where
# such a text begins where the log has nothing.
GATE, BODY, TEXT = 96, 101, 117
FIRST_TEXT = 36

rows = Rows("upgrade")


def upgrade_block(text, size=None, mark=0xFFFFFFFF, session=2, more=b""):
    """An open gate, the block of an upgrade to this text, and the closed gate behind it."""
    body = little(session, 8) + little(mark, 4) + little(len(text) if size is None else size, 4) + text + more
    return b"\1" + little(len(body), 4) + body + b"\0"


def fields(balance, limit=None, account=1):
    told = b"" if limit is None else b',"limit":%d' % limit
    return b'{"fields":{"balance":%d%s},"grain":"account/%d"}\n' % (balance, told, account)


def count(of):
    return b'{"count":%d}\n' % of


def audited(of):
    return silent(b'{"count":%d,"first_bad":null}\n' % of)


def version(unit, *values):
    """A version of a grain with these numbers."""
    return little(unit, 8) + little(len(values), 2) + b"".join(b"\0" + little(value, 8) for value in values)


def look(room):
    """One deposit, and a field more: the bytes, and what each command says then."""
    one = silo_folder(room, "one", BANK, deposit(5))
    before, told = files(one), run(one, "history").output
    rows.row("upgrade", run(one, "upgrade", given=LIMIT), silent())
    rows.row("its bytes", files(one), {**before, "manager-0.otx": before["manager-0.otx"][:GATE] + upgrade_block(LIMIT)})
    rows.row("where its text stands", (before["manager-0.otx"][GATE:], held(one, "manager-0.otx").index(LIMIT)), (b"\0", TEXT))
    rows.row("states", run(one, "show"), silent(fields(5, 7) + count(2)))
    rows.row("history", run(one, "history"), silent(told + b'{"session":2,"upgrade":%d}\n' % len(LIMIT)))
    rows.row("audit", run(one, "audit"), audited(2))
    rows.row("the reader", read_states(one), (0, [b'{"grain": "account/1", "state": {"balance": 5, "limit": 7}}', b'{"next_unit": 2}']))
    again = os.path.join(room, "again")
    shutil.copytree(one, again)

    # A deposit behind it writes both fields, and so does a compaction without one.
    rows.row("a deposit behind it", run(one, "run", given=deposit(1)), silent(reply(1, 6, 2)))
    rows.row("its version", held(one, "grain-0-0-1.otx"), version(1, 5) + version(2, 6, 7))
    for folder, last, units, entries in ((one, version(2, 6, 7), 3, 3), (again, version(1, 5, 7), 2, 2)):
        shown, known = run(folder, "show"), read_states(folder)
        rows.row(f"compact behind {entries}", run(folder, "compact"), silent())
        rows.row(f"its program, {entries}", held(folder, "program-1.otx"), little(len(LIMIT), 4) + LIMIT)
        rows.row(f"its version, {entries}", held(folder, "grain-1-0-1.otx"), last)
        piece = b"\0" + little(entries, 8) + little(units, 8) + little(entries, 8) + little(1, 4) + little(0, 2) + little(1, 4) + little(0, 8) + little(28, 4)
        rows.row(f"its manager file, {entries}", held(folder, "manager-1.otx"), b"\1OTXLOG02" + little(1, 4) + b"\1\0\1" + little(len(piece), 4) + piece + b"\0")
        rows.row(f"what it stands for, {entries}", (run(folder, "show"), read_states(folder)), (shown, known))
        rows.row(f"its history, {entries}", run(folder, "history"), silent())
    return before


def refuse(room):
    """What is refused, and in which order; then nothing was written."""
    one = silo_folder(room, "refused", BANK, deposit(5))
    before = files(one)
    counter = b"type counter { field value = 0; }"
    for what, text, wanted in (
        ("another program", counter, says(13, b"upgrade refused at 5")),
        ("no types", b"", says(13, b"upgrade refused at 0")),
        ("a type less", ONE_TYPE, says(13, b"upgrade refused at %d" % len(ONE_TYPE))),
        ("the other way round", OTHER_WAY, says(13, b"upgrade refused at 5")),
        ("no program", b"type a {", says(10, b"bad program at 8")),
        ("too long a text", b" " * (PROGRAM_LIMIT + 1), says(11, b"input too long")),
    ):
        rows.row(what, run(one, "upgrade", given=text), wanted)
        rows.row(f"{what}: its files", files(one), before)
    with open(os.devnull, "wb") as only_written:
        rows.row("an input that can't be read", run(one, "upgrade", streams={"stdin": only_written}), says(4, b"read fault"))
    rows.row("words behind it", run(one, "upgrade", "now", given=BANK), says(2, b"bad use"))
    rows.row("its files in the end", files(one), before)

    # The input comes before the program in it, and that before the folder.
    none = os.path.join(room, "none")
    os.mkdir(none)
    rows.row("too long a text over no silo", run(none, "upgrade", given=b" " * (PROGRAM_LIMIT + 1)), says(11, b"input too long"))
    rows.row("no program over no silo", run(none, "upgrade", given=b"type a {"), says(10, b"bad program at 8"))
    rows.row("a program over no silo", run(none, "upgrade", given=BANK), says(7, b"not a silo"))
    rows.row("a folder that stays empty", os.listdir(none), [])
    with open(os.path.join(one, "manager-0.otx"), "r+b") as file:
        file.truncate(20)
    rows.row("another program over a damaged folder", run(one, "upgrade", given=counter), says(9, b"damaged manager-0.otx at 16"))

    # What may follow: the same program, one without its methods, more types, and the longest text.
    may = silo_folder(room, "may", BANK, deposit(5))
    for at, text in enumerate((BANK, BARE, MORE_TYPES, MORE_TYPES + b" " * (PROGRAM_LIMIT - len(MORE_TYPES)))):
        rows.row(f"what may follow, {at}", run(may, "upgrade", given=text), silent())
        rows.row(f"its states, {at}", run(may, "show"), silent(fields(5) + count(at + 2)))
    rows.row("what mayn't follow any more", run(may, "upgrade", given=BARE), says(13, b"upgrade refused at %d" % len(BARE)))
    rows.row("its audit", run(may, "audit"), audited(5))


def carry(room):
    """A field that comes, goes and comes again begins anew; a grain that was never written gets the new values, and one that was keeps its own."""
    turns = silo_folder(room, "turns", BANK, deposit(5))
    told = run(turns, "history").output
    for at, (text, limit) in enumerate(((LIMIT, 7), (BANK, None), (LIMIT.replace(b"7", b"9"), 9))):
        rows.row(f"upgrade {at}", run(turns, "upgrade", given=text), silent())
        rows.row(f"its deposit, {at}", run(turns, "run", given=deposit(1)), silent(reply(1, 6 + at, 2 + at)))
        rows.row(f"its states, {at}", run(turns, "show"), silent(fields(6 + at, limit) + count(3 + 2 * at)))
        told += b'{"session":%d,"upgrade":%d}\n' % (2 + 2 * at, len(text))
        told += b'{"args":[1],"call":"account/1.deposit","n":1,"reply":%d,"session":%d,"unit":%d}\n' % (6 + at, 3 + 2 * at, 2 + at)
    rows.row("history of three", run(turns, "history"), silent(told))
    rows.row("audit of three", run(turns, "audit"), audited(7))
    shown = run(turns, "show"), read_states(turns)
    rows.row("compact of three", run(turns, "compact"), silent())
    rows.row("what it stands for", (run(turns, "show"), read_states(turns)), shown)

    # Without a deposit between: dropped and added again, it begins anew all the same.
    gone = silo_folder(room, "gone", LIMIT, deposit(5))
    for text in (BANK, LIMIT.replace(b"7", b"9")):
        rows.row("upgrade without a deposit", run(gone, "upgrade", given=text), silent())
    rows.row("a field that was dropped", run(gone, "show"), silent(fields(5, 9) + count(3)))

    kept = silo_folder(room, "kept", BANK, deposit(5) + ask(2))
    rows.row("upgrade to another first value", run(kept, "upgrade", given=THREE), silent())
    rows.row("what each reads", run(kept, "run", given=ask(1) + ask(2) + ask(3)), silent(reply(1, 5, 3) + reply(2, 3, 4) + reply(3, 3, 5)))
    rows.row("what is shown", run(kept, "show"), silent(fields(5) + count(6)))
    rows.row("a deposit on the new value", run(kept, "run", given=deposit(1, 3)), silent(reply(1, 4, 6)))
    rows.row("its audit", run(kept, "audit"), audited(7))


def damage(room, before):
    """The first damage of an upgrade's block, as each command names it."""
    bare = silo_folder(room, "bare", BARE)
    empty, made = files(bare), before["manager-0.otx"][:GATE]
    for what, template, front, block, at in (
        ("a session that falls", before, made, upgrade_block(LIMIT, session=0), BODY),
        ("a session over its limit", before, made, upgrade_block(LIMIT, session=1 << 63), BODY),
        ("that, and a count over its limit", before, made, upgrade_block(LIMIT, session=1 << 63, mark=0xFFFFFFFE), BODY),
        ("a count over its limit", before, made, upgrade_block(LIMIT, mark=0xFFFFFFFE), BODY + 8),
        ("a text over its limit", before, made, upgrade_block(LIMIT, size=PROGRAM_LIMIT + 1), BODY + 12),
        ("a text that is longer than the body", before, made, upgrade_block(LIMIT, size=len(LIMIT) + 1), TEXT),
        ("a text that is a program, and a line feed more", before, made, upgrade_block(LIMIT, size=len(LIMIT) - 1), TEXT + len(LIMIT) - 1),
        ("a byte more", before, made, upgrade_block(LIMIT, more=b"\0"), TEXT + len(LIMIT)),
        ("a text that ends with no character", before, made, upgrade_block(LIMIT[:-1] + b"\xff"), TEXT + len(LIMIT) - 1),
        ("that, and a byte more", before, made, upgrade_block(LIMIT[:-1] + b"\xff", more=b"\0"), TEXT + len(LIMIT) - 1),
        ("another name", empty, empty["manager-0.otx"][:15], upgrade_block(BARE.replace(b"account", b"accounx")), FIRST_TEXT + 5),
        ("another name, and a byte more", empty, empty["manager-0.otx"][:15],
         upgrade_block(BARE.replace(b"teller", b"tellex"), more=b"\0"), FIRST_TEXT + BARE.index(b"teller")),
        ("a type less", empty, empty["manager-0.otx"][:15], upgrade_block(ONE_TYPE), FIRST_TEXT + len(ONE_TYPE)),
        ("another name before a type less", empty, empty["manager-0.otx"][:15], upgrade_block(b"type accounx { }"), FIRST_TEXT + 5),
        ("no types", empty, empty["manager-0.otx"][:15], upgrade_block(b""), FIRST_TEXT),
    ):
        folder = os.path.join(room, "damaged")
        os.mkdir(folder)
        for name, bytes_held in {**template, "manager-0.otx": front + block}.items():
            with open(os.path.join(folder, name), "wb") as file:
                file.write(bytes_held)
        wanted = says(9, b"damaged manager-0.otx at %d" % at)
        for command, given in (("show", b""), ("history", b""), ("audit", b""), ("run", deposit(1)), ("compact", b""), ("upgrade", LIMIT)):
            rows.row(f"{what}: {command}", run(folder, command, given=given), wanted)
        rows.row(f"{what}: its files", held(folder, "manager-0.otx"), front + block)
        shutil.rmtree(folder)


def kill(room):
    """A kill at random moments: each leaves the silo with the upgrade or without it, and its log replays."""
    one = silo_folder(room, "killed", BANK, deposit(5))
    began = time.time()
    run(one, "upgrade", given=BANK)
    longest, entries, limit, wrong, seen = time.time() - began, 2, None, [], set()
    draws = random.Random(7)
    for turn in range(KILLS):
        # One with the field and one without it in turn.
        text, to = (LIMIT, 7) if limit is None else (BANK, None)
        kill_after(draws.uniform(0, longest), one, "upgrade", given=text)
        shown = run(one, "show")
        had, has = silent(fields(5, limit) + count(entries)), silent(fields(5, to) + count(entries + 1))
        if shown not in (had, has):
            wrong.append(f"kill {turn}: {shown}, neither {had} nor {has}")
            break
        seen.add(shown == has)
        entries, limit = (entries + 1, to) if shown == has else (entries, limit)
        if run(one, "audit") != audited(entries):
            wrong.append(f"kill {turn}: the log doesn't replay")
    rows.row(f"{KILLS} kills", wrong, [])
    rows.row("a kill before it, and one behind it", seen, {True, False})


with tempfile.TemporaryDirectory() as shared:
    first = look(shared)
    refuse(shared)
    carry(shared)
    damage(shared, first)
    kill(shared)

rows.end()
