"""What README.md and docs/OPERATIONS.md advise beyond the numbers and replies: each row is a case in which following them helps, or in
which the obvious thing would not.

The cases that need a disk that fails give the program a limit of its files, a folder under a file's name, or, where there is a C
compiler, a library that has one call of the system fail (`checks/faults.c`).
"""
import errno
import fcntl
import json
import os
import re
import resource
import shutil
import signal
import subprocess
import tempfile

import shim
from harness import BANK, PROGRAM, TOP, Ended, Rows, ask, can_trace, deposit, line, objects, reply, run, silo_folder

rows = Rows("advice")

# A transaction that begins another one, a plain run that does, and what the other one does.
SHOP = b"""type account { field balance = 0; method add(n) create update { set balance = balance + n; return balance; } }
type shop { method sell(n) create plain { let b = call account/1.add(n); return b; } method both(n) create plain { call account/1.add(n); call account/2.add(n); return n; } }
type desk { method sell(n) suppress plain { let b = call account/1.add(n); return b; } }
"""


def lines(ended):
    """The lines that a run put out, read as JSON."""
    return objects(ended.output)


def started(*words, given=b"", **how):
    """Runs the program by subprocess itself, for what harness.run has no word for."""
    done = subprocess.run([PROGRAM, *words], input=given, capture_output=True, timeout=100, **how)
    return Ended(done.returncode, done.stdout, done.stderr)


def small_files(limit):
    """What a process has to do so that its files can't grow beyond this."""

    def prepare():
        signal.signal(signal.SIGXFSZ, signal.SIG_IGN)
        resource.setrlimit(resource.RLIMIT_FSIZE, (limit, limit))

    return prepare


with tempfile.TemporaryDirectory() as room:

    def folder(name, *commands):
        return silo_folder(room, name, *commands)

    def failing(kind, at, *words, given=b""):
        """A run in which this call on the log fails, of those of this kind."""
        return run(*words, given=given, shim=shim.words(library, kinds=kind, names="manager-*", at=at, fail=errno.EIO))

    # The fault `aborted` is the abort of a transaction that the line's began, and may be sent again.
    # By a lock: the shop's child meets the lock of an older line.
    locked = folder("locked", SHOP)
    ended = run(locked, "run", "--width", "3", "--turns", "0,0,0,1,1", given=line("shop/1.sell", 1) + line("account/1.add", 2) + line("shop/2.sell", 3))
    faulted = [found for found in lines(ended) if found.get("fault") == "aborted"]
    rows.row("a child that meets a lock: its line's fault", (ended.number, len(faulted)), (0, 1))
    again = [line("shop/1.sell", 1), None, line("shop/2.sell", 3)][faulted[0]["n"] - 1] if faulted else b""
    ended = run(locked, "run", given=again)
    rows.row("sent again", [found["reply"] for found in lines(ended)], [6])

    # By a file that can't be written: number 0, and neither the cause nor the file is told.
    voted = folder("voted", SHOP)
    os.mkdir(os.path.join(voted, "grain-0-0-1.otx"))
    rows.row("a child whose file fails", run(voted, "run", given=line("shop/1.sell", 1)), Ended(0, b'{"fault":"aborted","n":1,"unit":1}\n', b""))
    rows.row("its history", run(voted, "history").output, b'{"args":[1],"call":"shop/1.sell","fault":"aborted","n":1,"session":1,"unit":1}\n')
    rows.row("the same file asked for by a line", run(voted, "run", given=line("account/1.add", 1)),
             Ended(0, b'{"aborted":"vote","grain":"account/1","n":1,"unit":2}\n', b""))
    os.rmdir(os.path.join(voted, "grain-0-0-1.otx"))
    rows.row("sent again, the file mended", run(voted, "run", given=line("shop/1.sell", 1)).output, b'{"n":1,"reply":1,"unit":2}\n')

    # By a block that can't be written.
    blocked = folder("blocked", SHOP)
    size = os.path.getsize(os.path.join(blocked, "manager-0.otx"))
    ended = started(blocked, "run", given=line("desk/1.sell", 1), preexec_fn=small_files(size + 30))
    rows.row("a child whose block fails", ended, Ended(0, b'{"fault":"aborted","n":1,"unit":1}\n', b""))
    rows.row("its line sent again, the disk mended", run(blocked, "run", given=line("desk/1.sell", 1)).output, b'{"n":1,"reply":1,"unit":1}\n')

    # What a transaction began and committed stays, so its line sent again would do that twice: `history` tells.
    stays = folder("stays", SHOP)
    os.mkdir(os.path.join(stays, "grain-0-0-2.otx"))
    rows.row("a line of which a child stays", run(stays, "run", given=line("shop/1.both", 5)).output, b'{"fault":"aborted","n":1,"unit":1}\n')
    rows.row("what its unit began", [found["call"] for found in lines(run(stays, "history")) if found.get("parent") == 1], ["account/1.add"])
    os.rmdir(os.path.join(stays, "grain-0-0-2.otx"))
    run(stays, "run", given=line("shop/1.both", 5))
    rows.row("sent again all the same", lines(run(stays, "show"))[:2], [
        {"fields": {"balance": 10}, "grain": "account/1"}, {"fields": {"balance": 5}, "grain": "account/2"}])

    # `init` of nothing makes a silo without types, for good.
    empty = folder("empty", b"")
    rows.row("a silo of nothing", run(empty, "run", given=deposit(5)), Ended(0, b'{"bad":"grain","n":1}\n', b""))
    rows.row("a second init", run(empty, "init", given=BANK), Ended(8, b"", b"silo: already a silo\n"))
    shutil.rmtree(empty)
    rows.row("once it is removed", run(folder("empty", BANK), "run", given=deposit(5)).output, reply(1, 5, 1))
    mute = os.path.join(room, "mute")
    os.mkdir(mute)
    missing = os.path.join(room, "nothere.grain")
    by_pipe = subprocess.run(["sh", "-c", f'cat "{missing}" 2>/dev/null | "{PROGRAM}" "{mute}" init'], capture_output=True).returncode
    rows.row("a program that isn't there, by a pipe", by_pipe, 0)
    shutil.rmtree(mute)
    os.mkdir(mute)
    by_shell = subprocess.run(["sh", "-c", f'"{PROGRAM}" "{mute}" init < "{missing}"'], capture_output=True).returncode
    rows.row("a program that isn't there, by the shell", (by_shell != 0, os.listdir(mute)), (True, []))

    # A file of requests that are none ends with 0.
    rows.row("a program in place of the requests", {*map(str, lines(run(empty, "run", given=b"x\ny\n")))}, {"{'bad': 'json', 'n': 1}", "{'bad': 'json', 'n': 2}"})

    # The number of a unit that didn't commit is given anew in the next run.
    anew = folder("anew", BANK)
    ended = run(anew, "run", "--width", "2", "--turns", "0,1", given=deposit(5) + deposit(6))
    rows.row("a unit that is aborted", [found.get("unit") for found in lines(ended) if "aborted" in found], [2])
    rows.row("its number in the next run", run(anew, "run", given=ask(2)).output, reply(1, 0, 2))
    # So it is with one in doubt that isn't in the log: after the next run `history` has another's under its number and line.
    # The log's writes for a first deposit are a block and its gate; its syncs the opening's, the block's and the gate's.
    library = shim.build(room)
    if library is None:
        print("advice: there is no C compiler, so doubts aren't shown")
    else:
        doubt = folder("doubt", BANK)
        ended = failing("write", 2, doubt, "run", given=deposit(5))
        rows.row("a gate that isn't written", ended, Ended(6, b'{"in_doubt":true,"n":1,"unit":1}\n', b"silo: disk fault in manager-0.otx\n"))
        rows.row("history before anything else", run(doubt, "history").output, b"")
        rows.row("the next run", run(doubt, "run", given=deposit(7, 2)).output, reply(1, 7, 1))
        rows.row("history after it", run(doubt, "history").output, b'{"args":[7],"call":"account/2.deposit","n":1,"reply":7,"session":1,"unit":1}\n')
        kept = folder("kept", BANK)
        ended = failing("sync", 3, kept, "run", given=deposit(5))
        rows.row("a gate that isn't synced", ended, Ended(6, b'{"in_doubt":true,"n":1,"unit":1}\n', b"silo: disk fault in manager-0.otx\n"))
        rows.row("its history", run(kept, "history").output, b'{"args":[5],"call":"account/1.deposit","n":1,"reply":5,"session":1,"unit":1}\n')

    # A load on a disk that fails ends with 0; its summary tells.
    full = os.path.join(room, "full")
    os.mkdir(full)
    ended = started(full, "load", "100", "7", preexec_fn=small_files(10_000))
    found = json.loads(ended.output)
    rows.row("a load on a disk that fails", (ended.number, ended.errors, found["requests"], found["aborted"] > 0), (0, b"", 164, True))
    rows.row("its folder afterwards", lines(run(full, "audit")), [{"count": found["committed"] + found["faulted"], "first_bad": None}])

    # Streams that don't wait fail where others wait.
    streams = folder("streams", BANK)
    read_end, write_end = os.pipe()
    os.set_blocking(read_end, False)
    rows.row("an input that doesn't wait", run(streams, "run", streams={"stdin": read_end}), Ended(4, b"", b"silo: read fault\n"))
    os.close(read_end)
    os.close(write_end)
    read_end, write_end = os.pipe()
    os.set_blocking(write_end, False)
    os.write(write_end, b"x" * fcntl.fcntl(write_end, getattr(fcntl, "F_GETPIPE_SZ", 1032)))
    rows.row("a full output that doesn't wait", run(streams, "run", given=deposit(5), streams={"stdout": write_end}).number, 5)
    os.close(read_end)
    os.close(write_end)
    rows.row("its line counts", lines(run(streams, "show"))[-1], {"count": 1})
    left = subprocess.run(["sh", "-c", f'"{PROGRAM}" "{streams}" history | true; "{PROGRAM}" "{streams}" audit'], capture_output=True)
    rows.row("a report that nobody reads does no harm", left.stdout, b'{"count":1,"first_bad":null}\n')

    # The empty word is the current folder.
    here = os.path.join(room, "here")
    os.mkdir(here)
    rows.row("init of an empty word", started("", "init", given=BANK, cwd=here), Ended(0, b"", b""))
    rows.row("what it made", sorted(os.listdir(here)), ["manager-0.otx", "program-0.otx"])
    rows.row("the current folder", started(".", "show", cwd=here).output, b'{"count":0}\n')
    guarded = subprocess.run(["sh", "-c", f'"{PROGRAM}" "${{FOLDER:?}}" init'], capture_output=True, cwd=room, env={"PATH": os.environ["PATH"]})
    rows.row("a name that isn't set, guarded", (guarded.returncode != 0, b"FOLDER" in guarded.stderr), (True, True))

    # There are no checksums: what a byte of the log that was changed on the disk comes to, by its place in the first deposit's block.
    def changed(name, at, byte, given):
        path = folder(name, BANK, given)
        with open(os.path.join(path, "manager-0.otx"), "r+b") as file:
            file.seek(at)
            file.write(bytes([byte]))
        return path

    key = changed("key", 48, 0x58, deposit(5))
    rows.row("history of a changed key", lines(run(key, "history"))[0]["call"], "account/22529.deposit")
    rows.row("a run over it", run(key, "run", given=ask()), Ended(0, reply(1, 5, 2), b""))
    rows.row("the audit of it", lines(run(key, "audit")), [{"count": 2, "first_bad": 1}])
    rows.row("the audit of a closed gate", lines(run(changed("gate", 15, 0, deposit(5)), "audit")), [{"count": 0, "first_bad": None}])
    rows.row("the audit of another line", lines(run(changed("line", 41, 7, deposit(5)), "audit")), [{"count": 1, "first_bad": None}])
    rows.row("the audit of a unit that wrote nothing", lines(run(changed("unit", 32, 9, ask()), "audit")), [{"count": 1, "first_bad": None}])
    cut = folder("cut", BANK, deposit(5))
    os.truncate(os.path.join(cut, "manager-0.otx"), 80)
    rows.row("the opening of a file that is cut", run(cut, "audit"), Ended(9, b"", b"silo: damaged manager-0.otx at 16\n"))

    traces = can_trace()
    if not traces:
        print("advice: nothing can be traced here, so calls of the system aren't counted")
    # What `init` syncs of folders is the one that it fills: that its name lasts in the one above it is what `sync` is for.
    if traces:
        fresh = os.path.join(room, "fresh")
        os.mkdir(fresh)
        traced = subprocess.run(["strace", "-y", "-f", "-e", "trace=fsync", PROGRAM, fresh, "init"], input=BANK, capture_output=True)
        assert traced.returncode == 0, traced.stderr
        rows.row("folders that init syncs", {*re.findall(rb"fsync\(\d+<([^>]*)>", traced.stderr)}, {os.path.realpath(fresh).encode()})
        rows.row("their parent's sync", subprocess.run(["sync", os.path.join(fresh, "..")]).returncode, 0)

    # The bytes of a record, by what docs/OPERATIONS.md says: of a line's, of a child's, of its parent's.
    with open(os.path.join(TOP, "docs", "OPERATIONS.md")) as file:
        row = re.search(r"\| a transaction in the log \| (.*) \|", file.read())[1]
    own, child, grain, head, batch, number, text, said = map(int, re.findall(r"\b\d+\b", row))

    def grows(path, name, given):
        before = os.path.getsize(os.path.join(path, name)) if os.path.exists(os.path.join(path, name)) else 0
        assert run(path, "run", given=given).number == 0
        return os.path.getsize(os.path.join(path, name)) - before

    sizes = folder("sizes", SHOP.replace(b"return n; } }\ntype desk", b'return n; } method no() create plain { fail "no"; } method word(s) create plain { return s; } }\ntype desk'))
    log = "manager-0.otx"
    rows.row("bytes of a line's record", grows(sizes, log, line("account/1.add", 1)), batch + own + 2 * number + grain)
    rows.row("bytes of a version", grows(sizes, "grain-0-0-1.otx", line("account/1.add", 1)), head + number)
    rows.row("bytes of a text", grows(sizes, log, line("shop/1.word", "four")), batch + own + 2 * (4 + text))
    rows.row("bytes of a fault", grows(sizes, log, line("shop/1.no")), batch + own + 2 + said)
    rows.row("bytes of a child's record and its parent's", grows(sizes, log, line("shop/1.sell", 1)),
             2 * batch + child + 2 * number + grain + own + 2 * number + number + 1)

    # The calls of the system at opening.
    if traces:

        def calls_of_opening(path):
            """How often an opening makes each call of the system."""
            counts = os.path.join(room, "counts")
            subprocess.run(["strace", "-f", "-c", "-o", counts, PROGRAM, path, "run"], input=b"", capture_output=True, check=True)
            with open(counts) as file:
                return {words[-1]: int(words[3]) for words in map(str.split, file) if len(words) in (5, 6) and words[3].isdigit()}

        asked, none = calls_of_opening(folder("many", BANK, *[deposit(1) for _ in range(20)])), calls_of_opening(folder("few", BANK))
        rows.row("reads more, for a log of 20 blocks and one grain's versions", asked["pread64"] - none["pread64"], 1)
        lengths = [sum(counted.get(name, 0) for name in ("statx", "fstat", "newfstatat")) for counted in (asked, none)]
        rows.row("looks more, of the log behind the program file and of the grain's file", lengths[0] - lengths[1], 2)

rows.end()
