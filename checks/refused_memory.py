"""A command that is refused memory once, at each place where it asks for some, or from there on: it ends with 3 or as it ends else, what it
has put out is the front of what it puts out else, and the folder holds what it held, and all that was answered. Workers number their
transactions as they come to them, and answer in any order: there each line that is answered has the reply that it has else."""
import concurrent.futures
import errno
import json
import os
import re
import shutil
import tempfile

import shim
from damage import TEXTS
from harness import FIRST_PROGRAM, MEMORY, Rows, ask, deposit, line, make_old, run

READING = FIRST_PROGRAM[:-1] + "method read() createorjoin read { return balance; } }"
OUTER = line("probe/3.outer")
UPGRADED = TEXTS.replace('field note = "";', 'field note = ""; field limit = 7;').encode()

# What each case is, its program, the runs before it, its words and its input.
CASES = [
    ("the first deposit", FIRST_PROGRAM, [], ["run"], deposit(5)),
    ("a deposit and a read at width 2", READING, [deposit(5)], ["run", "--width", "2"], deposit(6) + ask()),
    ("a transaction in another", TEXTS, [], ["run"], OUTER),
    ("two of them by two workers", TEXTS, [], ["run", "--workers", "2"], OUTER + deposit(5)),
    ("compact", TEXTS, [deposit(5) + OUTER, deposit(6)], ["compact"], b""),
    ("compact once more", TEXTS, [deposit(5) + OUTER, None, deposit(6)], ["compact"], b""),
    ("upgrade", TEXTS, [deposit(5) + OUTER], ["upgrade"], UPGRADED),
    ("migrate", TEXTS, [deposit(5) + OUTER], ["migrate"], b""),
    ("migrate behind a checkpoint", TEXTS, [deposit(5) + OUTER, None, deposit(6)], ["migrate"], b""),
]
WAYS = {"once": {}, "from there on": {"on": 1}}

rows = Rows("refused_memory")


class Case:
    """A command over copies of a folder."""

    def __init__(self, room, library, name, program, before, words, given):
        self.room, self.library, self.name, self.words, self.given = room, library, name, words, given
        self.template = tempfile.mkdtemp(dir=room)
        run(self.template, "init", given=program.encode())
        for lines in before:
            run(self.template, *(["compact"] if lines is None else ["run"]), given=lines or b"")
        self.records, self.shown, self.free = self.count(self.template), run(self.template, "show"), "--workers" in words
        if words == ["migrate"]:
            make_old(self.template)
        folder, self.whole, self.asked = self.run("whole", notes=os.path.join(room, name))
        shutil.rmtree(folder)

    def count(self, folder):
        """How many records replay."""
        found = re.fullmatch(rb'{"count":(\d+),"first_bad":null}\n', run(folder, "audit").output)
        return int(found[1]) if found else None

    def run(self, label, notes=None, **settings):
        """Runs the command in a new copy: the copy, how it ended, and how often it asked for memory, where that is noted."""
        folder = os.path.join(self.room, f"{self.name} {label}")
        shutil.copytree(self.template, folder)
        ended = run(folder, *self.words, given=self.given, shim=shim.words(self.library, kinds="memory", notes=notes, **settings))
        return folder, ended, sum(call.kind == "memory" for call in shim.notes(notes)) if notes else 0

    def answers(self, ended):
        """What each line was answered, without the number of its transaction; none where two have one number."""
        lines = [json.loads(line) for line in ended.output.splitlines()]
        if len({line["unit"] for line in lines}) < len(lines):
            return None
        return {line["n"]: {key: value for key, value in line.items() if key != "unit"} for line in lines}

    def is_whole(self, ended):
        """It ended as it does where nothing is refused."""
        if not self.free:
            return ended == self.whole
        return ended[0::2] == self.whole[0::2] and self.answers(ended) == self.answers(self.whole)

    def is_front(self, ended):
        """What it put out are whole lines, and the front of what it puts out else."""
        if ended.output and not ended.output.endswith(b"\n"):
            return False
        if not self.free:
            return self.whole.output.startswith(ended.output)
        answers = self.answers(ended)
        return answers is not None and answers.items() <= self.answers(self.whole).items()

    def try_one(self, way, at):
        """What is wrong where it is refused memory there."""
        folder, ended, _ = self.run(f"{way} {at}", at=at, fail=errno.ENOMEM, **WAYS[way])
        wrong, told = [], ended.output.splitlines()
        # What is said of it wants memory too.
        if not self.is_whole(ended) and (ended.number, ended.errors) not in ((3, b"silo: no memory\n"), (3, b"") if "on" in WAYS[way] else ()):
            wrong.append(f"it ended so: {ended}")
        if not self.is_front(ended):
            wrong.append(f"it put out {ended.output}, not the front of {self.whole.output}")
        if self.words == ["migrate"] and ended.number != 0:
            # It is an old silo still, and another one goes on.
            wrong += [f"a second one ended so: {again}" for again in [run(folder, "migrate")] if again.number != 0]
        count = self.count(folder)
        if count is None or count < self.records + sum(b'"reply"' in line for line in told):
            wrong.append(f"{count} records behind {ended}")
        # An upgrade that isn't done for want of memory wrote nothing.
        if (not self.given or self.words == ["upgrade"] and ended.number == 3) and run(folder, "show") != self.shown:
            wrong.append(f"it shows something else behind {ended}")
        if self.words == ["upgrade"] and ended.number == 0 and count != self.records + 1:
            wrong.append(f"{count} entries behind an upgrade that is done")
        shutil.rmtree(folder)
        return f"{self.name}, refused {way} at {at}", wrong, ended.number


def main():
    with tempfile.TemporaryDirectory(dir=MEMORY) as room:
        library = shim.build(room)
        if library is None:
            print("refused_memory: there is no C compiler here, so no memory is refused")
            rows.end()
        with concurrent.futures.ThreadPoolExecutor(4) as pool:
            for case in [Case(room, library, *one) for one in CASES]:
                rows.row(f"{case.name} where nothing is refused", (case.whole.number, case.asked > 0), (0, True))
                todo = [pool.submit(case.try_one, way, at) for way in WAYS for at in range(1, case.asked + 1)]
                ends = []
                for one in todo:
                    what, wrong, number = one.result()
                    ends.append(number)
                    rows.row(what, wrong, [])
                print(f"refused_memory: {case.name}: {len(ends)} runs, {ends.count(3)} without memory, {ends.count(0)} as else")
    rows.end()


main()
