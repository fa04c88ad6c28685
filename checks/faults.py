"""The program while calls of the system fail:  checks/faults.py [--all]

A library stands between the program and the C library (`checks/faults.c`), where there is a C compiler, and has one call of a command
fail, or each one from there on, or carry out a part alone, or refuses it memory: each call in turn with `--all`, else some of them. Then the number is one
that docs/OPERATIONS.md has, and names the file; each reply is in the log, which replays; a call that wasn't in vain aborts nobody;
no money is made or lost; reports print the front of what they print else; and a later run goes on.
"""
import concurrent.futures
import errno
import json
import os
import shutil
import sys
import tempfile

import kept
import shim
from harness import MEMORY, Rows, files, line, make_old, run

# Of so many calls one is tried, in a check that isn't told to try all of them, beside the first of each kind on each kind of file.
STRIDE = 4

# The files of a folder and the standard streams, as the library names them; what is said on standard error may fail.
FILES = ".,0,1,manager-*,program-*,grain-*"
# How calls fail: which kinds of them, and how the library is told so.
WAYS = {
    "EIO": {"kinds": "open,look,read,write,sync,size,lock", "fail": errno.EIO},
    "EIO from there on": {"kinds": "open,look,read,write,sync,size,lock", "fail": errno.EIO, "on": 1},
    "ENOSPC": {"kinds": "open,write,sync,size", "fail": errno.ENOSPC},
    "EINTR": {"kinds": "open,read,write,sync,lock", "fail": errno.EINTR},
    "a part": {"kinds": "read,write", "short": 1},
    "no memory": {"kinds": "memory", "names": None, "fail": errno.ENOMEM},
}
# So many calls that ask for memory are tried where not all are.
ASKED = 50

rows = Rows("faults")

LINES = [
    *(line("teller/0.transfer", at % 4, (at * 3 + 1) % 4, 1 + at) for at in range(8)),
    line("teller/0.transfer", 1, 2, 100_000),
    b"no request\n",
    line("account/2.read"),
    line("account/3.read"),
]
# Lines whose transactions begin others.
NESTED = [
    line("mover/0.move", 1, 2, 5),
    line("mover/1.count", 2, 3, 6),
    line("mover/0.spoil", 3, 0, 7),
    line("teller/0.transfer", 0, 1, 8),
    line("mover/1.count", 0, 3, 9),
]


class Case:
    """A command over a copy of a folder, and what is asked of it where calls failed on some files."""

    def __init__(self, room, library, name, template, words, given=b""):
        self.room, self.library, self.name, self.template, self.words, self.given = room, library, name, template, words, given
        self.spared = set()

    def run(self, label, **settings):
        """Runs the command in a new copy: the copy, how it ended, and the calls that it made."""
        folder = os.path.join(self.room, f"{self.name} {label}".replace(" ", "_"))
        shutil.copytree(self.template, folder)
        noted = folder + ".notes"
        ended = run(folder, *self.words, given=self.given, shim=shim.words(self.library, **{"notes": noted, "names": FILES, **settings}))
        calls = shim.notes(noted)
        if os.path.exists(noted):
            os.remove(noted)
        return folder, ended, calls

    def try_one(self, way, at):
        """What is wrong where this call, of those that may, fails in this way."""
        folder, ended, calls = self.run(f"{way} {at}", at=at, **WAYS[way])
        failed = {call.name for call in calls if call.done == "fails"}
        try:
            wrong = self.wrong(folder, ended, failed)
            # A call that was interrupted may be made again, and a command does without knowing how many files may be open.
            if way != "EINTR" and not (way == "no memory" and at in self.spared):
                wrong += self.untold(ended, failed)
        except (ValueError, LookupError) as error:
            wrong = [f"what it left can't be read: {error!r}, {ended}"]
        done = [call for call in calls if call.done != "-"]
        shutil.rmtree(folder)
        return f"{self.name}, {way} at {at}, {done[0].kind + ' ' + done[0].name if done else 'no call'}", wrong

    def untold(self, ended, failed):
        """What is wrong where nothing tells that these calls failed."""
        return [f"it ended with 0 where calls failed on {sorted(failed)}"] if failed and ended.number == 0 else []


class Run(Case):
    """A run of lines."""

    def wrong(self, folder, ended, failed):
        return kept.judge(folder, BEFORE, self.given.splitlines(), ended, failed)

    def untold(self, ended, failed):
        # A run by workers can do without the memory of a thread.
        return [] if failed == {shim.NO_FILE} and "--workers" in self.words else kept.passed_over(ended, failed)


class Nested(Run):
    """A run of lines that begin transactions: one of these that is aborted has no reply of its own."""

    def untold(self, ended, failed):
        return []


class Report(Case):
    """A report, which prints the front of what it prints else, and changes nothing."""

    def wrong(self, folder, ended, failed):
        whole = REPORTS[self.words[0]]
        wrong = kept.wrong_number(ended, failed)
        if not whole.startswith(ended.output) or (ended.number == 0 and ended.output != whole):
            wrong.append(f"it printed {ended.output}")
        if files(folder) != files(self.template):
            wrong.append("a file was changed")
        return wrong


def run_behind(folder):
    """What is wrong with a run over what a command left."""
    ended = run(folder, "run", given=line("account/0.deposit", 5))
    return [] if ended.number == 0 and b'"reply"' in ended.output else [f"a run behind it ended so: {ended}"]


class Rewrite(Case):
    """A command that writes a silo's files and prints nothing, and that a run may follow, whatever failed. `left` is what is wrong with what
    it left."""

    def untold(self, ended, failed):
        # Once all is written it does without memory.
        return [] if failed == {shim.NO_FILE} else super().untold(ended, failed)

    def wrong(self, folder, ended, failed):
        printed = [f"it printed {ended.output}"] if ended.output else []
        return kept.wrong_number(ended, failed) + printed + self.left(folder, ended) + run_behind(folder)


class Compact(Rewrite):
    """`compact`, which leaves the states, and a log that replays and goes on."""

    def left(self, folder, ended):
        wrong, audit, shown = [], run(folder, "audit"), run(folder, "show")
        if audit.output != REPORTS["audit"] or shown.output != REPORTS["show"]:
            wrong.append(f"behind it an audit and a show ended so: {audit}, {shown}")
        if ended.number != 0 and kept.history(folder)[0] not in (BEFORE, []):
            wrong.append("a part of the records is gone")
        return wrong


class Migrate(Rewrite):
    """`migrate`, which leaves the old silo or the new one, with the same log, and goes on where it is called once more."""

    def left(self, folder, ended):
        wrong, again = [], run(folder, "migrate")
        # Behind a failed call of the last sync it may be a new silo all the same.
        if again.number not in ((15,) if ended.number == 0 else (0, 15)):
            wrong.append(f"a second one ended so: {again}, behind {ended}")
        told = {command: run(folder, command).output for command in MIGRATED}
        if told != MIGRATED:
            wrong.append(f"behind it reports say so: {told}")
        return wrong


class Upgrade(Rewrite):
    """`upgrade`, which leaves the log as it was or with the upgrade, and goes on."""

    def left(self, folder, ended):
        wrong, told, shown, audit = [], kept.history(folder)[0], run(folder, "show"), run(folder, "audit")
        more = told[len(BEFORE):]
        entry = b'{"session":%d,"upgrade":%d}' % (SESSION + 1, len(self.given))
        if told[:len(BEFORE)] != BEFORE or more not in ([], [entry]) or (ended.number == 0 and not more):
            wrong.append(f"with {ended.number} it left {told}")
        if b'"first_bad":null' not in audit.output or (b'"limit"' in shown.output) != bool(more):
            wrong.append(f"behind it an audit and a show ended so: {audit}, {shown}")
        # What ended before the block was written left nothing.
        if more and ended.number in (3, 4):
            wrong.append(f"with {ended.number} it left the upgrade")
        return wrong


class Making(Case):
    """`init`: it makes a silo or leaves none, and a second one makes it."""

    def wrong(self, folder, ended, failed):
        wrong = kept.wrong_number(ended, failed)
        # Behind a failed call of the last sync it may be a silo all the same.
        again = run(folder, "init", given=kept.PROGRAM_TEXT).number
        if again not in ((8,) if ended.number == 0 else (0, 8)):
            wrong.append(f"a second init ended with {again} behind {ended.number}")
        if ended.number == 4 and again != 0:
            wrong.append("something was made without an input")
        used = run(folder, "run", given=line("account/0.deposit", 5))
        if used != (0, b'{"n":1,"reply":5,"unit":1}\n', b""):
            wrong.append(f"a run in what was made ended so: {used}")
        return wrong


class Load(Case):
    """`load`: where it made a silo its log replays, and what it summed up is in it."""

    def untold(self, ended, failed):
        # A unit that was aborted tells of it.
        return super().untold(ended, failed) if ended.number != 0 or json.loads(ended.output)["aborted"] == 0 else []

    def wrong(self, folder, ended, failed):
        wrong = kept.wrong_number(ended, failed - {"0"})
        audit = run(folder, "audit")
        again = run(folder, "load", "4", "7").number
        if (audit.number, again) == (7, 0):
            return wrong + [f"no silo behind {ended}"] * (ended.number == 0)
        if (audit.number, again) != (0, 8) or not audit.output.endswith(b'"first_bad":null}\n'):
            return [*wrong, f"an audit ended so: {audit}, and a second load with {again}"]
        if ended.number == 0:
            told = json.loads(ended.output)
            records = [json.loads(record) for record in kept.history(folder)[0]]
            found = tuple(sum(key in record for record in records) for key in ("reply", "fault"))
            if found != (told["committed"], told["faulted"]) or told["requests"] != 68 or sum(found) + told["aborted"] != 68:
                wrong.append(f"{told} beside {found} records")
            if kept.money(folder) != told["total"]:
                wrong.append(f"{told}, and the balances make {kept.money(folder)}")
            if not failed and told != SUMMARY:
                wrong.append(f"{told}, though no call failed")
        elif not SUMMARY_LINE.startswith(ended.output[:1]) or ended.output.endswith(b"\n"):
            wrong.append(f"with {ended.number} it printed {ended.output}")
        return wrong


def asked_for_limits(calls):
    """Which of the calls that ask for memory, counted from 1, are made while the system's limits are read."""
    at_limits = [place for place, call in enumerate(calls) if call.name == "limits"]
    asked = [place for place, call in enumerate(calls) if call.kind == "memory"]
    return {number for number, place in enumerate(asked, 1) if at_limits and at_limits[0] < place < at_limits[-1]}


def tries(case, stride):
    """Which calls are to fail, and how, of those that the command makes where none fails."""
    _, ended, calls = case.run("plain")
    rows.row(f"{case.name} where nothing fails", ended.number, 0)
    rows.row(f"{case.name} makes calls that the library notes", {"open", "read"} <= {call.kind for call in calls}, True)
    for turn, (way, settings) in enumerate(WAYS.items()):
        if way == "no memory":
            folder, _, asked = case.run("asked", kinds="memory,open,read", names=None)
            shutil.rmtree(folder)
            case.spared = asked_for_limits(asked)
            count = sum(call.kind == "memory" for call in asked)
            yield from ((case, way, at) for at in range(1, count + 1, 1 if stride == 1 else count // ASKED + 1))
            continue
        kinds = settings["kinds"].split(",")
        chosen = [(call.kind, call.name.split("-")[0]) for call in calls if call.kind in kinds and call.name not in ("2", shim.NO_FILE)]
        firsts = {chosen.index(call) + 1 for call in chosen}
        yield from ((case, way, at) for at in sorted(firsts | set(range(1 + turn % stride, len(chosen) + 1, stride))))


with tempfile.TemporaryDirectory(dir=MEMORY) as room:
    library = shim.build(room)
    if library is None:
        print("faults: there is no C compiler here, so no call fails")
        rows.end()
    empty, template = os.path.join(room, "empty"), os.path.join(room, "template")
    os.mkdir(empty)
    os.mkdir(template)
    kept.make(template)
    BEFORE = kept.history(template)[0]
    REPORTS = {command: run(template, command).output for command in ("show", "history", "audit")}
    # Its files of two generations ago are there.
    twice = os.path.join(room, "twice")
    shutil.copytree(template, twice)
    run(twice, "compact")
    run(twice, "compact")
    SESSION = json.loads(BEFORE[-1])["session"]
    # The same silo in format 1, and what the reports say once it is migrated.
    old, migrated = os.path.join(room, "old"), os.path.join(room, "migrated")
    shutil.copytree(template, old)
    make_old(old)
    shutil.copytree(old, migrated)
    run(migrated, "migrate")
    MIGRATED = {command: run(migrated, command).output for command in REPORTS}
    loaded = os.path.join(room, "loaded")
    os.mkdir(loaded)
    SUMMARY_LINE = run(loaded, "load", "4", "7", "--width", "8").output
    SUMMARY = json.loads(SUMMARY_LINE)

    given = b"".join(LINES)
    cases = [
        Run(room, library, "a run at width 4", template, ["run", "--width", "4"], given),
        Run(room, library, "a run by 2 workers", template, ["run", "--workers", "2"], given),
        Nested(room, library, "transactions within others at width 4", template, ["run", "--width", "4"], b"".join(NESTED)),
        Making(room, library, "init", empty, ["init"], kept.PROGRAM_TEXT),
        Load(room, library, "load", empty, ["load", "4", "7", "--width", "8"]),
        Compact(room, library, "compact", template, ["compact"]),
        Compact(room, library, "compact once more", twice, ["compact"]),
        Migrate(room, library, "migrate", old, ["migrate"]),
        Upgrade(room, library, "upgrade", template, ["upgrade"], kept.PROGRAM_TEXT.replace(b"field balance = 0;", b"field balance = 0; field limit = 7;")),
        *(Report(room, library, command, template, [command]) for command in REPORTS),
    ]
    stride = 1 if "--all" in sys.argv[1:] else STRIDE
    with concurrent.futures.ThreadPoolExecutor(4) as pool:
        todo = [pool.submit(case.try_one, way, at) for case in cases for case, way, at in tries(case, stride)]
        for one in todo:
            what, wrong = one.result()
            rows.row(what, wrong, [])

rows.end()
