"""Each number that the program ends with: what it writes, what it says, and what the folder holds afterwards."""
import os
import tempfile

from harness import BANK, Rows, ask, deposit, make_old, reply, run, says, silent, silo_folder

LINE_LIMIT = 65_536
PROGRAM_LIMIT = 262_144

rows = Rows("statuses")


with tempfile.TemporaryDirectory() as room:

    def folder(name, *commands):
        return silo_folder(room, name, *commands)

    def after(path):
        """What a later run over the folder answers to a request that asks for the balance."""
        return run(path, "run", given=ask())

    # 0: all was done.
    shop = folder("shop")
    rows.row("init", run(shop, "init", given=BANK), silent())
    rows.row("run", run(shop, "run", given=deposit(5) + b"x\n" + deposit(2)), silent(reply(1, 5, 1) + b'{"bad":"json","n":2}\n' + reply(3, 7, 2)))
    rows.row("run without requests", run(shop, "run"), silent())
    rows.row("run again", after(shop), silent(reply(1, 7, 3)))

    # 2: bad use. The folder isn't touched.
    unused = folder("unused")
    rows.row("no words", run(given=deposit(5)), says(2, b"bad use"))
    for words in ([], ["runs"], ["run", "run"], ["init", "x"], ["run", "--width", "0"], ["run", "--width"], ["run", "--turns", "1,"],
                  ["run", "--workers", "0"], ["show", "x"], ["upgrade", "x"], ["load", "0", "7"], ["--help"], [b"\xff"]):
        rows.row(f"words {words}", run(unused, *words, given=deposit(5)), says(2, b"bad use"))
    rows.row("an unused folder", os.listdir(unused), [])

    # 3: no memory. Nothing was carried, since the first 4,096 lines have more bytes than the program may have at all, though it starts.
    tight = folder("tight", BANK)
    starts = [megabytes << 20 for megabytes in range(5, 15) if run(tight, "run", memory=megabytes << 20).number == 0]
    if starts:
        rows.row("an input that memory doesn't suffice for", run(tight, "run", given=(b" " * LINE_LIMIT + b"\n") * 4096, memory=starts[0]), says(3, b"no memory"))
    else:
        print("statuses: the program doesn't start in little memory, so 3 isn't shown")
    rows.row("no memory: afterwards", after(tight), silent(reply(1, 0, 1)))

    # 4: the input can't be read. Nothing was answered.
    unread = folder("unread", BANK)
    with open(os.devnull, "wb") as only_written:
        rows.row("an input that can't be read", run(unread, "run", streams={"stdin": only_written}), says(4, b"read fault"))
    rows.row("read fault: afterwards", after(unread), silent(reply(1, 0, 1)))

    # 5: the output can't be written. The request whose reply was cut is in the log, and no later one.
    cut = folder("cut", BANK)
    read_end, write_end = os.pipe()
    os.close(read_end)
    rows.row("an output that nobody reads", run(cut, "run", given=deposit(5) + deposit(6), streams={"stdout": write_end}), says(5, b"write fault"))
    os.close(write_end)
    rows.row("write fault: afterwards", after(cut), silent(reply(1, 5, 2)))
    if os.path.exists("/dev/full"):
        with open("/dev/full", "wb") as full:
            rows.row("an output on a full device", run(cut, "run", given=deposit(5), streams={"stdout": full}), says(5, b"write fault"))

    # 6: a call on a file failed.
    missing = os.path.join(room, "missing")
    rows.row("init of a folder that isn't there", run(missing, "init", given=BANK), says(6, b"disk fault in manager-0.otx"))
    rows.row("the folder that isn't there", os.path.exists(missing), False)
    odd = folder("odd")
    os.mkdir(os.path.join(odd, "manager-0.otx"))
    rows.row("run over no file", run(odd, "run", given=deposit(5)), says(6, b"disk fault in manager-0.otx"))
    os.mkfifo(os.path.join(room, "pipe"))
    rows.row("run over a pipe", run(os.path.join(room, "pipe"), "run"), says(6, b"disk fault in manager-0.otx"))

    # 7: not a silo.
    rows.row("run over an empty folder", run(folder("empty"), "run", given=deposit(5)), says(7, b"not a silo"))
    rows.row("run over a folder that isn't there", run(missing, "run", given=deposit(5)), says(7, b"not a silo"))

    # 8: already a silo. It stays as it was.
    rows.row("a second init", run(shop, "init", given=BANK), says(8, b"already a silo"))
    rows.row("a second init: afterwards", after(shop), silent(reply(1, 7, 4)))

    # 9: damaged, and where.
    broken = folder("broken", BANK, deposit(5))
    manager = os.path.join(broken, "manager-0.otx")
    with open(manager, "r+b") as file:
        file.truncate(20)
    rows.row("a log that was cut", run(broken, "run", given=deposit(5)), says(9, b"damaged manager-0.otx at 16"))
    rows.row("damaged: afterwards", os.path.getsize(manager), 20)

    # 10: no program, and where. Nothing was made.
    for text, at in ((b"type a { method m() create plain { return x; } }", 42), (b"type a {", 8), (b"type a { method m() create plain { return 1 ~ 2; } }", 44)):
        bad = folder("bad")
        rows.row(f"init of {text}", run(bad, "init", given=text), says(10, b"bad program at %d" % at))
        rows.row("bad program: afterwards", os.listdir(bad), [])
        os.rmdir(bad)

    # 11: too long a line, of which and of the others of its 4,096 nothing was answered; or too long a program.
    long = folder("long", BANK)
    rows.row("a line above the limit", run(long, "run", given=ask() + b" " * (LINE_LIMIT + 1)), says(11, b"input too long"))
    rows.row("a line at the limit", run(long, "run", given=b" " * LINE_LIMIT), silent(b'{"bad":"json","n":1}\n'))
    empty = b"".join(b'{"bad":"json","n":%d}\n' % n for n in range(1, 4097))
    rows.row("a line above the limit behind 4,096", run(long, "run", given=b"\n" * 4096 + b" " * (LINE_LIMIT + 1)), says(11, b"input too long", empty))
    wide = folder("wide")
    rows.row("a program above the limit", run(wide, "init", given=b" " * (PROGRAM_LIMIT + 1)), says(11, b"input too long"))
    rows.row("program too long: afterwards", os.listdir(wide), [])
    rows.row("line too long: afterwards", after(long), silent(reply(1, 0, 1)))

    # 12: no generation follows. Nothing was changed.
    last = folder("last", BANK, deposit(5))
    with open(os.path.join(last, "manager-0.otx"), "r+b") as file:
        file.seek(9)
        file.write(b"\xff" * 4)
    before = sorted(os.listdir(last))
    rows.row("compact of the last generation", run(last, "compact"), says(12, b"last generation"))
    rows.row("last generation: its files", sorted(os.listdir(last)), before)
    rows.row("last generation: afterwards", after(last), silent(reply(1, 5, 2)))

    # 13: the program may not follow. Nothing was changed.
    before = sorted(os.listdir(shop))
    rows.row("upgrade to another program", run(shop, "upgrade", given=b"type shop { }"), says(13, b"upgrade refused at 5"))
    rows.row("upgrade to no types", run(shop, "upgrade"), says(13, b"upgrade refused at 0"))
    rows.row("upgrade refused: its files", sorted(os.listdir(shop)), before)
    rows.row("upgrade refused: afterwards", after(shop), silent(reply(1, 7, 5)))

    # 14 and 15: the silo has an earlier format, or hasn't one. Nothing was changed.
    rows.row("migrate of a silo that isn't old", run(shop, "migrate"), says(15, b"not an old format"))
    rows.row("not an old format: its files", sorted(os.listdir(shop)), before)
    make_old(shop)
    rows.row("a run of an old silo", run(shop, "run", given=ask()), says(14, b"old format"))
    rows.row("old format: its files", sorted(os.listdir(shop)), before)
    rows.row("migrate of an old silo", run(shop, "migrate"), silent())
    rows.row("migrate: afterwards", after(shop), silent(reply(1, 7, 6)))

rows.end()
