"""Folders whose bytes somebody has changed: what the program says of each is what docs/FORMATS.md, docs/OPERATIONS.md and the reader of
examples/reader say, and it neither crashes nor hangs nor takes much memory."""
import collections
import json
import multiprocessing
import os
import random
import re
import shutil
import signal
import sys
import tempfile

import harness
from harness import FIRST_PROGRAM, MEMORY, PROGRAM, TOP, Ended, Rows, as_before, deposit, line, run

sys.path.insert(0, os.path.join(TOP, "examples", "reader"))
sys.dont_write_bytecode = True
import read  # noqa: E402

# A bank with a text, and transactions that others begin.
TEXTS = """type account {
  field balance = 0;
  field note = "";
  method deposit(n) createorjoin update { set balance = balance + n; return balance; }
  method rename(text) createorjoin update { set note = text; return note; }
}
type probe {
  field total = 0;
  method aside(a, n) suppress plain { call account/a.deposit(n); return 0; }
  method split(a, n) create plain { call probe/0.aside(a, n); fail "after"; }
  method inner() create update { set total = total + 100; return total; }
  method outer() create update {
    set total = total + 1;
    attempt r = call probe/key.inner() { return r; } else { set total = total + 10; }
    return total;
  }
}
"""
BATCHES = [[("account/1.deposit", [5]), ("account/2.rename", ["née \u0007\"x"]), ("probe/1.split", [1, 7])],
           [("probe/3.outer", []), ("account/300.rename", ["a longer note"]), ("account/1.deposit", [-9])]]
# A field more, it dropped, and it again beside a type more.
UPGRADES = [TEXTS.replace('field note = "";', 'field note = ""; field limit = -7;'), TEXTS,
            TEXTS.replace("field balance = 0;", "field limit = 9; field balance = 3;") + "type more { field one = 1; }\n"]
# A program of few bytes, each of which is changed.
SMALL = "type account { field balance = 0; method deposit(n) createorjoin update { set balance = balance + n; return balance; } }"
BYTES = (0, 1, 2, 3, 7, 127, 128, 255)
SEEDED = 2000

# The most memory that a process here may take, in KiB, and the most seconds. Its files are short, so their length fields permit no more.
MOST_MEMORY = 65536
MOST_SECONDS = 20

# The last two write the folder anew.
COMMANDS = ("run", "show", "history", "audit", "migrate", "compact")
STREAMS = ("input", "output", "errors")
Process = collections.namedtuple("Process", "number output errors memory")
Refusal = collections.namedtuple("Refusal", "number errors")


def compact_json(value):
    return json.dumps(value, sort_keys=True, separators=(",", ":"), ensure_ascii=False)


class Place:
    """A folder that one worker lays out again and again, and what a process there wrote."""

    def __init__(self, room):
        self.top = tempfile.mkdtemp(dir=room)
        self.folder, self.texts = os.path.join(self.top, "folder"), {}
        self.streams = [os.path.join(self.top, name) for name in STREAMS]

    def carry(self, folder, command, given=b""):
        with open(self.streams[0], "wb") as file:
            file.write(given)
        flags = (os.O_RDONLY, os.O_WRONLY | os.O_CREAT | os.O_TRUNC, os.O_WRONLY | os.O_CREAT | os.O_TRUNC)
        process = os.posix_spawn(PROGRAM, [PROGRAM, folder, command], os.environ, file_actions=[
            (os.POSIX_SPAWN_OPEN, at, self.streams[at], flags[at], 0o600) for at in range(3)])
        signal.signal(signal.SIGALRM, lambda *_: os.kill(process, signal.SIGKILL))
        signal.alarm(MOST_SECONDS)
        _, ended, taken = os.wait4(process, 0)
        signal.alarm(0)
        output, errors = (harness.held(self.top, name) for name in STREAMS[1:])
        return Process(os.waitstatus_to_exitcode(ended), output, errors, taken.ru_maxrss)

    def lay(self, laid):
        shutil.rmtree(self.folder, ignore_errors=True)
        os.mkdir(self.folder)
        for name, content in laid.items():
            with open(os.path.join(self.folder, name), "wb") as file:
                file.write(content)

    def fault_of(self, text):
        """Where a text is no program, none where it is one."""
        if text not in self.texts:
            folder = os.path.join(self.top, "made")
            shutil.rmtree(folder, ignore_errors=True)
            os.mkdir(folder)
            made = self.carry(folder, "init", text)
            found = re.fullmatch(rb"silo: bad program at (\d+)\n", made.errors)
            assert made.number == 0 if found is None else made.number == 10, made
            self.texts[text] = None if found is None else int(found[1])
        return self.texts[text]


def live_slot(files):
    """The slot whose files count, none where the folder is no silo."""
    found = read.live_of([files.get(f"manager-{slot}.otx", b"") for slot in (0, 1)])
    return found and found[0]


def is_old(files):
    """Whether the silo has format 1, which `migrate` alone opens."""
    return files[f"manager-{live_slot(files)}.otx"][8:9] == b"1"


def program_fault(place, files):
    """The file and the place where the program's text is none, or nothing."""
    name = f"program-{live_slot(files)}.otx"
    held = files.get(name, b"")
    size = int.from_bytes(held[:4], "little")
    if len(held) < 4 or size > 262144 or size > len(held) - 4:
        return None
    fault = place.fault_of(held[4:4 + size])
    return None if fault is None else f"{name} is damaged at {4 + fault}"


def judged(place, files):
    """What there is to be said of a folder: what is in it, or the refusal."""
    if live_slot(files) is None:
        return Refusal(7, b"silo: not a silo\n")
    try:
        damage = program_fault(place, files)
        if damage is None:
            return read.found_in(place.folder, place.fault_of)
    except read.Damaged as found:
        damage = str(found)
    name, at = damage.split(" is damaged at ")
    return Refusal(9, f"silo: damaged {name} at {at}\n".encode())


def history_line(record):
    if "upgrade" in record:
        return compact_json(record)
    begun = {"n": record["line"]} if "line" in record else {"parent": record["parent"]}
    result = record["result"]
    ended = {"fault": result["fault"]} if isinstance(result, dict) else {"reply": result}
    return compact_json({"args": record["args"], "call": record["call"], "session": record["session"], "unit": record["unit"], **begun, **ended})


def wanted_output(command, found, count):
    """What a command writes over a folder that is whole, none where more than one thing may be right."""
    records, states, _following = found
    if command == "show":
        told = [compact_json({"fields": state, "grain": grain}) for grain, state in states.items()] + [compact_json({"count": count})]
    elif command == "history":
        told = [history_line(record) for record in records]
    else:
        return b""
    return "".join(line + "\n" for line in told).encode()


def records_before(files):
    """How many records and upgrades a checkpoint stands for."""
    held = files[f"manager-{live_slot(files)}.otx"]
    return int.from_bytes(held[21:29], "little") if held[13] == 1 else 0


def looked_at(place, files):
    """What isn't as it should be in a folder with these files, in words."""
    place.lay(files)
    wanted, wrong = judged(place, files), []
    no_silo = live_slot(files) is None
    old = not no_silo and is_old(files)
    for command in COMMANDS:
        found = place.carry(place.folder, command)
        if found.memory > MOST_MEMORY:
            wrong.append(f"{command}: {found.memory} KiB")
        if not no_silo and old != (command == "migrate"):
            # Of whichever format it is, that is told before any damage.
            told = (15, b"", b"silo: not an old format\n") if command == "migrate" else (14, b"", b"silo: old format\n")
            if found[:3] != told:
                wrong.append(f"{command}: {found}, not {told}")
            continue
        if command == "migrate" and not isinstance(wanted, Refusal) and found.number == 0:
            old = False
        if isinstance(wanted, Refusal):
            if found[:3] != (wanted.number, b"", wanted.errors):
                wrong.append(f"{command}: {found}, not {wanted}")
            continue
        count = records_before(files) + len(wanted[0])
        if command == "audit":
            if found.number != 0 or not re.fullmatch(rb'{"count":%d,"first_bad":(null|\d+)}\n' % count, found.output):
                wrong.append(f"audit: {found}")
        elif command in ("compact", "migrate") and files[f"manager-{live_slot(files)}.otx"][9:13] == b"\xff" * 4:
            if found[:3] != (12, b"", b"silo: last generation\n"):
                wrong.append(f"{command}: {found}")
        elif found[:3] != (0, wanted_output(command, wanted, count), b""):
            wrong.append(f"{command}: {found}, not {wanted_output(command, wanted, count)}")
    if isinstance(wanted, Refusal):
        if harness.files(place.folder) != files:
            wrong.append("a file was changed")
    elif not wrong and not old:
        again = place.carry(place.folder, "show")
        if again[:3] != (0, wanted_output("show", wanted, count), b"") or read.found_in(place.folder, place.fault_of)[1:] != wanted[1:]:
            wrong.append(f"behind compact: {again}, not {wanted}")
    return wrong, "none" if live_slot(files) is None else wanted.number if isinstance(wanted, Refusal) else 0


def changed(held, at, byte):
    return held[:at] + bytes([byte]) + held[at + 1:]


def each_change(files, names):
    """Each byte of these files set to each of some values, and each prefix of them."""
    for name in names:
        held = files[name]
        for at in range(len(held)):
            yield f"{name} cut to {at}", {**files, name: held[:at]}
            for byte in BYTES:
                if byte != held[at]:
                    yield f"{name}, {byte} at {at}", {**files, name: changed(held, at, byte)}


def mutated(draws, held):
    """The bytes of a file, changed at random."""
    at, to = (draws.randrange(len(held) + 1) for _ in range(2))
    kind = draws.randrange(8)
    if kind == 0 and at < len(held):
        return changed(held, at, held[at] ^ 1 << draws.randrange(8))
    if kind == 1 and at < len(held):
        return changed(held, at, draws.choice(BYTES))
    if kind == 2:
        return held[:at]
    if kind == 3:
        return held[:at] + bytes(draws.choice(BYTES) for _ in range(draws.randrange(1, 9))) + held[at:]
    if kind == 4:
        return held[:min(at, to)] + held[max(at, to):]
    if kind == 5:
        return held[:at] + held[to:to + draws.randrange(1, 40)] + held[at:]
    width = draws.choice((2, 4, 8))
    number = draws.choice((0, 1, 64, 65, 256, 2 ** 31, 2 ** 32 - 1, 2 ** 63, 2 ** 64 - 1, draws.randrange(2 ** 16))) % 256 ** width
    return held[:at] + number.to_bytes(width, "little") + held[at + width:]


def mutations(seed, name, files, count):
    draws = random.Random(seed)
    for turn in range(count):
        made = dict(files)
        for _ in range(draws.choice((1, 1, 1, 2, 3))):
            which = draws.choice(sorted(made))
            made[which] = mutated(draws, made[which])
        if draws.randrange(50) == 0:
            del made[draws.choice(sorted(made))]
        yield f"{name}, mutation {turn}", made


def silo_of(room, program, batches):
    """The folder of a silo of a program with these batches."""
    folder = tempfile.mkdtemp(dir=room)
    run(folder, "init", given=program.encode())
    for batch in batches:
        assert run(folder, "run", "--width", "8", given=batch).number == 0
    return folder


def begin(room):
    global place
    place = Place(room)


def looked_at_case(case):
    name, files = case
    try:
        return name, *looked_at(place, files)
    except Exception as error:  # an error of the reader's is one too
        return name, [repr(error)], "none"


def table(rows, room):
    """The rows of single changes to the first deposit's manager file, and programs that are none."""
    folder, one = silo_of(room, FIRST_PROGRAM, [deposit(5)]), Place(room)
    files = harness.files(folder)
    manager = files["manager-0.otx"]

    def row(what, held, number, file=None, at=None, command="run", output=b""):
        one.lay({**files, "manager-0.otx": held})
        errors = {0: b"", 7: b"silo: not a silo\n"}.get(number, f"silo: damaged {file} at {at}\n".encode())
        rows.row(what, one.carry(one.folder, command)[:3], (number, output, errors))

    for cut in range(97):
        row(f"cut to {cut}", manager[:cut], 7 if cut < 16 else 9, "manager-0.otx", 16)
    for at, file, named in [(13, None, 13), (27, None, 20), (28, None, 28), (53, None, 53), (64, None, 64), (76, None, 76),
                            (32, "grain-0-0-1.otx", 0), (39, None, 32), (40, None, 40), (55, None, 55), (66, None, 66), (67, None, 67),
                            (45, None, 45), (51, None, 51), (78, None, 78), (80, "grain-0-0-255.otx", 0)]:
        row(f"255 at {at}", changed(manager, at, 255), 9, file or "manager-0.otx", named)
    row("255 at 15", changed(manager, 15, 255), 0)
    row("255 at 15, shown", changed(manager, 15, 255), 0, command="show", output=b'{"count":0}\n')
    deep = "type a { method m() create plain { " + "if 1 { " * 31
    for text, at in [("type a {", 8), ("type A", 5), ("type a { field x = 01; }", 20), ("type a { } type a { }", 16),
                     (deep, deep.rindex("{"))]:
        rows.row(f"init of {text[:30]}", run(tempfile.mkdtemp(dir=room), "init", given=text.encode()),
                 Ended(10, b"", f"silo: bad program at {at}\n".encode()))
    long = run(tempfile.mkdtemp(dir=room), "init", given=b" " * 262145)
    rows.row("init of 262,145 bytes", long, Ended(11, b"", b"silo: input too long\n"))
    return folder


def cases(room, folder):
    """Each folder that is looked at: what it is, and its files."""
    files = harness.files(folder)
    yield from each_change(files, files)
    run(folder, "compact")
    yield from each_change(harness.files(folder), ["manager-1.otx"])
    batches = [b"".join(line(call, *arguments) for call, arguments in batch) for batch in BATCHES]
    folder = silo_of(room, TEXTS, batches)
    yield "whole", harness.files(folder)
    yield from mutations(1, "two batches", harness.files(folder), SEEDED)
    run(folder, "compact")
    run(folder, "run", given=batches[0])
    yield "compacted", harness.files(folder)
    yield from mutations(2, "compacted", harness.files(folder), SEEDED // 4)
    for text in UPGRADES:
        assert run(folder, "upgrade", given=text.encode()).number == 0
        run(folder, "run", given=batches[0])
    yield "upgraded", harness.files(folder)
    yield from mutations(3, "upgraded", harness.files(folder), SEEDED // 2)
    # The same silo in format 1.
    old = dict(files, **{"manager-0.otx": as_before(files["manager-0.otx"])})
    yield from each_change(old, ["manager-0.otx", "program-0.otx"])
    files = harness.files(folder)
    live = f"manager-{live_slot(files)}.otx"
    old = {name: held for name, held in files.items() if name.startswith("manager") == (name == live)}
    old[live] = as_before(files[live])
    yield "an old silo", old
    yield from mutations(4, "an old silo", old, SEEDED // 2)
    small = silo_of(room, SMALL, [deposit(5)])
    assert run(small, "upgrade", given=SMALL.replace("0;", '0; field note = "new";').encode()).number == 0
    yield from each_change(harness.files(small), ["manager-0.otx"])


def main(room):
    rows = Rows("damage")
    folder, counts = table(rows, room), collections.Counter()
    with multiprocessing.Pool(len(os.sched_getaffinity(0)), begin, (room,)) as pool:
        for name, wrong, number in pool.imap_unordered(looked_at_case, cases(room, folder), 8):
            counts[number] += 1
            rows.row(name, wrong, [])
    print(f"damage: {sum(counts.values())} folders, {counts[0]} of them whole, {counts[9]} damaged")
    rows.end()


if __name__ == "__main__":
    with tempfile.TemporaryDirectory(dir=MEMORY) as memory:
        main(memory)
