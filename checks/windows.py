"""Runs of several windows of input, against the turn rule written a second time over the core's rules (`core_rules.py`): the same
replies in the same order, and the same batches, which tell what was in flight together where a window ends; and a client that streams.
Where memory has a limit, a wish and a load bring a grain into it: over more grains than that, a load may take the grain out of memory for
which another line is about to ask, which is brought in once more, and others move before it."""
import collections
import os
import random
import subprocess
import sys
import tempfile

import core_rules
from harness import BANK, PROGRAM, TOP, Rows, run

sys.dont_write_bytecode = True
sys.path.insert(0, os.path.join(TOP, "tools", "python"))
import silo  # noqa: E402

WINDOW = 4096
# How many of the grains used last stay in memory though nobody uses them.
LIMIT = 4096

rows = Rows("windows")


class Grown(set):
    append = set.add


class Core(core_rules.Plain):
    """The core's rules, with lists that grow kept as sets, the grains used last in a dictionary, the last one last, and the lowest version
    of a grain in memory as one that was loaded; only those grains are looked at for leaving memory that aren't among those used last.
    Over units that begin no others."""

    def __init__(self):
        super().__init__(1, LIMIT)
        self.learnt, self.gone = Grown(), Grown()
        self.known = 0  # So many units of the finish order have nothing to be learnt.
        self.recent = collections.OrderedDict()
        self.old = set()  # The grains in memory that aren't among those used last.
        self.last = {}  # The last committed writer of each grain, and its state.
        self.looked = 0  # So many units of the finish order are looked at for that.

    def use(self, grain):
        self.recent[grain] = None
        self.recent.move_to_end(grain)
        self.old.discard(grain)
        if len(self.recent) > LIMIT:
            self.old.add(self.recent.popitem(last=False)[0])

    def sweep(self):
        for grain in [grain for grain in self.old if self.is_idle(grain)]:
            self.old.discard(grain)
            self.here.discard(grain)

    def drop_under(self, grain, unit):
        super().drop_under(grain, unit)
        lowest = next((version for version in self.versions if version[0] == grain), None)
        if lowest and lowest[1] == unit:
            self.loaded[grain] = lowest[1:]
            self.settled_bottoms.discard(grain)
            self.versions.remove(lowest)

    def last_version(self, grain):
        while self.looked < len(self.order) and self.fate(self.order[self.looked]) in ("committed", "aborted"):
            number = self.order[self.looked]
            if self.fate(number) == "committed":
                self.last.update((at, (number, state)) for at, state in self.unit(number).effect.writes)
            self.looked += 1
        return self.last.get(grain, (0, core_rules.first_state(grain)))

    def children(self, parent):
        return []

    def next_learn(self):
        while self.known < len(self.order):
            number = self.order[self.known]
            if self.fate(number) not in ("committed", "aborted"):
                return super().next_learn() if self.doubt else self.later()
            for grain, _ in self.unit(number).effect.writes:
                if (number, grain) not in self.learnt:
                    return number, grain
            self.known += 1
        return None

    def later(self):
        """The first that is to be learnt behind one that isn't decided yet."""
        for number in self.order[self.known:]:
            if self.fate(number) in ("committed", "aborted"):
                for grain, _ in self.unit(number).effect.writes:
                    if (number, grain) not in self.learnt:
                        return number, grain
        return None


class Turns:
    """A run of deposits on one thread: what a line asks is an account and a sum, or it is empty."""

    def __init__(self, lines, width, picks):
        self.core, self.lines, self.width, self.picks, self.used = Core(), lines, width, picks, 0
        self.batches = []  # How many records each sealed batch has.
        self.under_way = []  # The units that run or have a lock, or whose line has no entry.
        self.passed = 0  # The pass of wishes has come so far: to one behind the unit that wanted last.

    def grain(self, number):
        return 0, self.lines[self.core.unit(number).origin[1] - 1][0]

    def is_free(self, number):
        return all(unit != number for _, unit, _ in self.core.locks)

    def can_move(self, number):
        if not self.core.is_running(number):
            return not self.is_free(number)
        return self.core.mode_of(number, self.grain(number)) is not None or self.asked(number) not in ("waits", "absent")

    def asked(self, number):
        return self.core.ask(number, self.grain(number), core_rules.UPDATE)[0]

    def wisher(self):
        """The next unit of the pass whose grain isn't in memory."""
        return next((number for number in self.under_way if number >= self.passed and self.core.is_running(number)
                     and self.core.mode_of(number, self.grain(number)) is None and self.asked(number) == "absent"), None)

    def movers(self):
        return [number for number in self.under_way if self.can_move(number)] + ([None] if self.core.work() != ("rests",) else [])

    def move_unit(self, number):
        core, grain = self.core, self.grain(number)
        one = core.unit(number)
        if not core.is_running(number):
            return core.step(("release", number, grain))
        if core.mode_of(number, grain) is None:
            free = self.asked(number) == "free"
            return core.step(("grant" if free else "refuse", number, grain, core_rules.UPDATE))
        state = (one.reads[0][1][0] + self.lines[one.origin[1] - 1][1],)
        return core.step(("finish", number, core_rules.Effect(number, one.origin, one.call, [], one.reads, [(grain, state)], state[0])))

    def move_settler(self):
        name, *rest = self.core.work()
        if name == "votes":
            return self.core.step(("vote", rest[0], rest[1], True))
        if name == "seals":
            self.batches.append(len(rest[1]))
        events = {"seals": "sealed", "decides": "decide", "learns": "learn", "takes": "take", "writes": "emitted"}
        return self.core.step((events[name], *(rest[:1] if name in ("seals", "decides") else rest if name == "learns" else [])))

    def turn(self):
        """Takes a turn, and answers whether there was one. A wanted grain is brought into memory at once."""
        core = self.core
        if core.next_wanted() is not None:
            grain = core.next_wanted()
            unit, state = core.last_version(grain)
            assert core.step(("load", unit, grain, state)) == "done", grain
            return True
        movers, wisher = self.movers(), self.wisher()
        begun = core.lines
        settled = {unit for _, unit, _ in core.settled[-2 * len(self.under_way) - 64:]} if self.under_way else set()
        self.under_way = [number for number in self.under_way if not (number in settled and self.is_free(number))]
        if begun < len(self.lines) and len(self.under_way) < self.width and (begun % WINDOW != 0 or not (movers or wisher)):
            self.passed = 0
            if self.lines[begun] is None:
                core.step(("bad", begun + 1, "json"))
            else:
                core.step(("begin", ("line", begun + 1), ((0, self.lines[begun][0]), 0), False))
                self.under_way.append(core.next() - 1)
            return True
        if wisher is not None:
            assert core.step(("want", wisher, self.grain(wisher))) == "done", wisher
            self.passed = wisher + 1
            return True
        self.passed = 0
        if not movers:
            return False
        pick = self.picks[self.used] if self.used < len(self.picks) else 0
        self.used += 1
        mover = movers[pick % len(movers)]
        said = self.move_settler() if mover is None else self.move_unit(mover)
        assert said != "no", (mover, said)
        return True

    def replies(self):
        while self.turn():
            pass
        return [self.reply(*entry) for entry in self.core.settled]

    @staticmethod
    def reply(line, unit, what):
        if what[0] == "bad":
            return b'{"bad":"json","n":%d}\n' % line
        if what[0] == "done":
            return b'{"n":%d,"reply":%d,"unit":%d}\n' % (line, what[1], unit)
        return b'{"aborted":"lock","by":%d,"grain":"account/%d","n":%d,"unit":%d}\n' % (what[1], what[2][1], line, unit)


def request(account, amount):
    return b'{"args":[%d],"call":"account/%d.deposit"}\n' % (amount, account)


def deposits(draw, count, accounts):
    """So many deposits among so many accounts."""
    return [(draw.randrange(accounts) + 1, draw.randrange(1, 100)) for _ in range(count)]


def in_turn(*accounts):
    """A deposit of 1 for each account."""
    return [(account, 1) for account in accounts]


def is_as_ruled(room, draw, name, lines, width, picks):
    """Whether a run of these lines, deposits and empty ones, says what the rule says."""
    turns = [draw.randrange(2**32) if draw.random() < 0.5 else draw.randrange(4) for _ in range(picks)]
    folder = os.path.join(room, name)
    os.mkdir(folder)
    assert run(folder, "init", given=BANK).number == 0
    words = ["--width", str(width)] + (["--turns", ",".join(map(str, turns))] if turns else [])
    ended = run(folder, "run", *words, given=b"".join(request(*line) if line else b"\n" for line in lines))
    rows.row(f"{name}: number", ended.number, 0)
    ruled = Turns(lines, width, turns)
    found, wanted = ended.output.splitlines(keepends=True), ruled.replies()
    first = next((at for at, (one, other) in enumerate(zip(found, wanted)) if one != other), None)
    rows.row(f"{name}: the first reply that differs", first and (found[first], wanted[first]), None)
    rows.row(f"{name}: replies", len(found), len(wanted))
    rows.row(f"{name}: batches", silo.batches(folder), ruled.batches)


def stream(room):
    """A client that writes a window, and reads its replies before it writes the next."""
    folder = os.path.join(room, "stream")
    os.mkdir(folder)
    assert run(folder, "init", given=BANK).number == 0
    with subprocess.Popen([PROGRAM, folder, "run", "--width", "64"], stdin=subprocess.PIPE, stdout=subprocess.PIPE) as it:
        for window in range(3):
            it.stdin.write(request(1, 1) * 5 + b"\n" * (WINDOW - 5))
            it.stdin.flush()
            replies = [it.stdout.readline() for _ in range(WINDOW)]
            answered = sum(b'"reply"' in line or b'"aborted"' in line for line in replies)
            rows.row(f"window {window}: replies", (len(replies), answered), (WINDOW, 5))
        it.stdin.close()
        rows.row("the end", (it.stdout.read(), it.wait()), (b"", 0))


def small_memory(room, draw):
    """Runs over more grains than stay in memory."""
    full = in_turn(*range(1, LIMIT + 1))
    is_as_ruled(room, draw, "more-grains-than-stay-in-memory", full + deposits(draw, 1000, LIMIT + 40), 64, 4096)
    pairs = in_turn(*(account for at in range(1, 400) for account in (at, LIMIT + at)))
    is_as_ruled(room, draw, "the-grain-that-was-used-first-and-a-new-one", full + pairs, 64, 4096)
    is_as_ruled(room, draw, "the-same-without-picks", full + pairs, 4, 0)


def main(seed=7):
    draw = random.Random(int(seed))
    with tempfile.TemporaryDirectory() as room:
        is_as_ruled(room, draw, "8192-lines-at-width-64", deposits(draw, 2 * WINDOW, 8), 64, 4096)
        is_as_ruled(room, draw, "a-seam-at-width-8", [None] * (WINDOW - 60) + deposits(draw, 120, 2), 8, 4096)
        is_as_ruled(room, draw, "no-picks", deposits(draw, WINDOW + 1, 3), 16, 0)
        stream(room)
        small_memory(room, draw)
    rows.end()


main(*sys.argv[1:])
