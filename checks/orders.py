"""What runs leave in their logs: the order of records, the answers in one, what a doubt leaves, and that all workers start.

The inputs are worked out by hand. Some want calls that fail, by a library (`checks/faults.c`), where there is a C compiler.
"""
import contextlib
import errno
import io
import json
import os
import shutil
import sys
import tempfile

import shim
from harness import MEMORY, TOP, Ended, Rows, ask, deposit, line, reply, run

sys.path.insert(0, os.path.join(TOP, "examples", "reader"))
import read  # noqa: E402

GATE = 15

rows = Rows("orders")


def records(folder):
    """What the reader says of each record."""
    with contextlib.redirect_stdout(io.StringIO()) as told:
        read.read(folder)
    return [it for it in map(json.loads, told.getvalue().splitlines()) if "unit" in it]


def told(n, call, args, result, unit):
    """A line of the history: that of a line's record, or with a text in place of a number one of a parent's."""
    head = {"args": args, "call": call, **({"fault": result} if isinstance(result, str) else {}), **(n if isinstance(n, dict) else {"n": n}),
            **({} if isinstance(result, str) else {"reply": result}), "session": 1, "unit": unit}
    return json.dumps(head, separators=(",", ":")).encode() + b"\n"


def done(*lines):
    return Ended(0, b"".join(lines), b"")


with tempfile.TemporaryDirectory(dir=MEMORY) as room:
    library = shim.build(room)
    bank = os.path.join(room, "bank")
    os.mkdir(bank)
    run(bank, "load", "1", "7")
    with open(os.path.join(bank, "program-0.otx"), "rb") as file:
        program = file.read()[4:]
    made = 0

    def silo():
        """A new silo of the program that loads carry."""
        global made
        made += 1
        folder = os.path.join(room, str(made))
        os.mkdir(folder)
        rows.row(f"init {made}", run(folder, "init", given=program), done())
        return folder

    def ordered(what, words, given, replies, history):
        """A run, and its log's history."""
        folder = silo()
        rows.row(what, run(folder, *words, given=given), done(*replies))
        rows.row(f"{what}: its history", run(folder, "history"), done(*history))
        rows.row(f"{what}: its audit", run(folder, "audit"), done(b'{"count":%d,"first_bad":null}\n' % len(history)))
        return folder

    read_one = ("account/1.read", [])
    ordered("a reader, then a writer", ("run", "--width", "2"), ask() + deposit(4), [reply(1, 0, 1), reply(2, 4, 2)],
            [told(1, *read_one, 0, 1), told(2, "account/1.deposit", [4], 4, 2)])
    ordered("a unit that waits for a younger one", ("run", "--width", "2", "--turns", "1"), deposit(5) + deposit(3), [reply(2, 3, 2), reply(1, 8, 1)],
            [told(2, "account/1.deposit", [3], 3, 2), told(1, "account/1.deposit", [5], 8, 1)])
    fault = b'{"fault":"after","n":1,"unit":1}\n'
    folder = ordered("a deposit outside the transaction that begins it", ("run",), line("probe/0.split", 1, 5) + ask(), [fault, reply(2, 5, 3)],
                     [told({"parent": 1}, "account/1.deposit", [5], 5, 2), told(1, "probe/0.split", [1, 5], "after", 1), told(2, *read_one, 5, 3)])
    rows.row("a deposit outside: the answers", [it["answers"] for it in records(folder)], [[], [5], []])
    # By two workers the first line's lock may refuse the second.
    folder = silo()
    two = run(folder, "run", "--workers", "2", given=deposit(5) + ask())
    units = [(one["n"], one["unit"]) for one in map(json.loads, two.output.splitlines()) if "reply" in one]
    rows.row("two lines by two workers: their history", (two.number, [(it["line"], it["unit"]) for it in records(folder)]), (0, units))

    # A child that its parent's lock refuses: one record, whose one answer is the abort.
    folder = ordered("a child that is refused", ("run",), line("probe/3.outer"), [reply(1, 11, 1)], [told(1, "probe/3.outer", [], 11, 1)])
    rows.row("a child that is refused: its answers", [it["answers"] for it in records(folder)], [["aborted"]])

    if library is None:
        print("orders: there is no C compiler here, so no call fails")
    else:

        def with_fault(name, kind, at):
            return shim.words(library, names=name, kinds=kind, at=at, fail=errno.EIO)

        both = deposit(5) + ask()
        # The sync of a version fails: the unit and what has read from it are aborted, and nothing is logged.
        folder = silo()
        wanted = b'{"aborted":"vote","grain":"account/1","n":1,"unit":1}\n{"aborted":"dependency","n":2,"on":1,"unit":2}\n'
        rows.row("a failed vote", run(folder, "run", "--width", "2", given=both, shim=with_fault("grain-0-0-1.otx", "sync", 1)), done(wanted))
        rows.row("a failed vote: the log", (run(folder, "history"), run(folder, "show")), (done(), done(b'{"count":0}\n')))

        # The sync of the gate fails, the third of the manager file: both or none are in the log. No other byte of it is in doubt.
        folder = silo()
        wanted = b'{"in_doubt":true,"n":1,"unit":1}\n{"in_doubt":true,"n":2,"unit":2}\n'
        ended = run(folder, "run", "--width", "2", given=both, shim=with_fault("manager-0.otx", "sync", 3))
        rows.row("a batch in doubt", ended, Ended(6, wanted, b"silo: disk fault in manager-0.otx\n"))
        lines = [told(1, "account/1.deposit", [5], 5, 1), told(2, *read_one, 5, 2)]
        for gate, count in ((0, 0), (1, 2)):
            image = f"{folder}-{gate}"
            shutil.copytree(folder, image)
            with open(os.path.join(image, "manager-0.otx"), "r+b") as file:
                file.seek(GATE)
                file.write(bytes([gate]))
            rows.row(f"a batch in doubt whose gate is {gate}", (run(image, "history"), run(image, "audit")),
                     (done(*lines[:count]), done(b'{"count":%d,"first_bad":null}\n' % count)))
            rows.row(f"the next run where the gate is {gate}", run(image, "run", given=ask()), done(reply(1, 5 if count else 0, count + 1)))

        # The first reply can't be written: nothing is, and the transaction is in the log.
        for words in ((), ("--width", "2"), ("--workers", "1"), ("--workers", "2"), ("--workers", "16")):
            folder, what = silo(), " ".join(["a reply that can't be written", *words])
            rows.row(what, run(folder, "run", *words, given=deposit(5), shim=with_fault("1", "write", 1)), Ended(5, b"", b"silo: write fault\n"))
            shown = done(b'{"fields":{"balance":5},"grain":"account/1"}\n{"count":1}\n')
            rows.row(f"{what}: afterwards", run(folder, "show"), shown)

        # All workers start: as many threads as are asked for, and the one that writes the log is the process's own.
        for workers in (1, 2, 3, 16):
            folder, noted = silo(), os.path.join(room, f"threads{workers}")
            ended = run(folder, "run", "--workers", str(workers), given=line("probe/0.spin", 9) * 40, shim=shim.words(library, notes=noted))
            threads = sum(call.kind == "thread" for call in shim.notes(noted))
            rows.row(f"threads of {workers} workers", (ended.number, ended.output.count(b"\n"), threads), (0, 40, workers))

rows.end()
