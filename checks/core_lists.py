#!/usr/bin/env python3
"""Makes the lists of core events that the program of `core_tests` carries, and what it has to say to them:
  checks/core_lists.py          writes crates/core_tests/stdin and stdout anew
  checks/core_lists.py --check  says whether these files are what would be written
  checks/core_lists.py --list SEED COUNT FOLDER [tell]  writes FOLDER/script and FOLDER/replies: a random list on its own, of so
                                many events; with all that is answered in place of its sum, where that is wanted
The replies of the worked lists stand by hand in `core_worked.txt`, and have to be those of `core_rules.py` too. The random
lists are guided: mostly the next event is one that applies, else it is any event, or one of the past ones again. Their
replies, and all answers after each event, are those of `core_rules.py`."""
import os
import sys

from core_rules import ABORTED, READ, UPDATE, UNIT_LIMIT, Effect, NoNumber, Plain, state_text
from harness import TOP, write_or_compare

LISTS, EVENTS = 40, 100
# So many lists more are over memory for one or two grains, and each worked list whose title begins so is over memory for two.
LIMITED = 20
IN_MEMORY = "memory for two grains"
# The grains that lists speak of, the last one without a type.
GRAINS = [(0, 0), (0, 1), (0, 2), (1, 1), (2, 0)]


# What the program says, as texts.

def grain_text(grain):
    return f"{grain[0]}/{grain[1]}"


def outcome_text(outcome):
    if outcome == ABORTED:
        return "aborted"
    return str(outcome) if isinstance(outcome, int) else f"fault {outcome}"


def settled_text(what):
    name, rest = what[0], what[1:]
    if name == "done":
        return f"done {outcome_text(*rest)}"
    if name == "lock":
        return f"lock of {rest[0]} at {grain_text(rest[1])}"
    if name == "vote":
        return f"vote at {grain_text(*rest)}"
    if name == "dependency":
        return f"dependency on {rest[0]}"
    return " ".join(what)


def entry_text(entry):
    return f"line {entry[0]} unit {entry[1]} {settled_text(entry[2])}"


def entries_text(entries):
    return "; ".join(entry_text(entry) for entry in entries)


def effect_text(effect):
    answers = "".join(f" a={outcome_text(answer)}" for answer in effect.answers)
    reads = "".join(f" r{grain_text(grain)}={state_text(state)}of{source}" for grain, state, source in effect.reads)
    writes = "".join(f" w{grain_text(grain)}={state_text(state)}" for grain, state in effect.writes)
    return f"({effect.unit} {outcome_text(effect.result)}{answers}{reads}{writes})"


def effects_text(plain, numbers):
    return "".join(effect_text(plain.unit(number).effect) for number in numbers)


def decision_text(decision):
    if decision == "c":
        return " c"
    return f" v{grain_text(decision[1])}" if decision[0] == "v" else f" d{decision[1]}"


def batch_text(plain):
    batch = plain.batch
    if batch is None:
        return "no batch"
    aborted = "".join(f" {number}" for number in plain.aborted_sources())
    votes = "".join(f" {'yes' if yes else 'no'}{grain_text(grain)}" for grain, yes in batch.votes)
    decided = "" if batch.decisions is None else " decided" + "".join(map(decision_text, batch.decisions))
    return f"batch {batch.number} {effects_text(plain, batch.units)} aborted{aborted}{votes}{decided}"


def work_text(plain):
    name, *rest = plain.work()
    if name == "seals":
        return f"seals {rest[0]} {effects_text(plain, rest[1])}"
    if name == "votes":
        versions = "".join(f" {unit}={state_text(state)}" for unit, state in rest[2])
        return f"votes in {rest[0]} at {grain_text(rest[1])}{versions}"
    if name == "learns":
        return f"learns {rest[0]} at {grain_text(rest[1])}"
    if name == "loads":
        return f"loads {grain_text(*rest)}"
    if name == "writes":
        return f"writes {entry_text(rest[0])}"
    return " ".join([name, *map(str, rest)])


def flag_text(flag):
    return "y" if flag else "n"


def ask_text(answer):
    return ASKS[answer[0]].format(*answer[1:])


ASKS = {"not active": "n", "doomed": "doomed{}", "held": "h", "dies": "die{}", "waits": "wait{}", "free": "f", "absent": "absent"}


def unit_text(plain, number, whole):
    outcome = plain.outcome(number)
    text = "?" if outcome is None else outcome_text(outcome)
    asks = []
    if whole or plain.is_running(number):
        asks = [ask_text(plain.ask(number, grain, mode)) for grain in GRAINS for mode in (READ, UPDATE)]
    return f"{number}: " + "".join(word + " " for word in [text, flag_text(outcome is not None), *asks])


def survey(plain, below, whole):
    """All that is answered: to each question of no unit, the last states, the settled entries, and of each unit below this
    one; what one that isn't active is answered that asks for a lock only where `whole` is set."""
    learn, entry = plain.next_learn(), plain.next_entry()
    answers = [
        batch_text(plain),
        f"{learn[0]} at {grain_text(learn[1])}" if learn else "-",
        flag_text(plain.can_take()),
        str(plain.lines + 1),
        entry_text(entry) if entry else "-",
        flag_text(plain.is_stopped()),
        grain_text(plain.next_wanted()) if plain.next_wanted() else "-",
        work_text(plain),
    ]
    states = [plain.last_state(grain) for grain in GRAINS]
    lines = [answer + " " for answer in answers]
    lines.append("".join(("-" if state is None else state_text(state)) + " " for state in states))
    lines.append(entries_text(plain.settled))
    return "\n".join(lines + [unit_text(plain, number, whole) for number in range(below)])


def sum_of(text):
    """The sum of a text: from 0, times 2^40 + 435, and the byte added, modulo 2^64, byte for byte."""
    total = 0
    for byte in text.encode():
        total = (total * 1099511628211 + byte) % 2**64
    return total


# Scripts.

class Script:
    """The lines of a script, and what the program has to say to them."""

    def __init__(self, tells=False):
        self.lines = []
        self.replies = []
        self.tells = tells

    def write(self, *words):
        self.lines.append(" ".join(map(str, words)))

    def title(self, text):
        self.write("title", text)
        self.replies.append(text)

    def open(self, base, limit=None):
        """A new core; so many of the grains used last stay in memory, or every grain does."""
        self.write("open", base, limit or 0)
        self.replies.append("opened")
        return Plain(base, limit)

    def origin_and_call(self, origin, call):
        grain, method = call
        if origin[0] == "line":
            self.write("of_line", origin[1])
        else:
            self.write("of_child", *origin[1:])
        self.write("call", method, *grain)

    def outcome(self, outcome):
        if outcome == ABORTED:
            self.write("abort")
        elif isinstance(outcome, int):
            self.write("value", outcome)
        else:
            self.write("fault")

    def state(self, state):
        for number in state:
            self.write("field", number)

    def effect(self, effect):
        self.origin_and_call(effect.origin, effect.call)
        for answer in effect.answers:
            self.outcome(answer)
            self.write("answer")
        for grain, state, source in effect.reads:
            self.state(state)
            self.write("found", source, *grain)
        for grain, state in effect.writes:
            self.state(state)
            self.write("wrote", 0, *grain)
        self.outcome(effect.result)

    def event(self, event):
        """The lines of an event."""
        name, rest = event[0], event[1:]
        if name == "begin":
            self.origin_and_call(*rest[:2])
            self.write("begin", int(rest[2]))
        elif name == "grant":
            self.write(rest[2], rest[0], *rest[1])
        elif name == "refuse":
            self.write(f"refuse_{rest[2]}", rest[0], *rest[1])
        elif name in ("finish", "end_plain"):
            self.effect(rest[1])
            self.write(name, rest[0], rest[1].unit)
        elif name == "end_snapshot":
            self.outcome(rest[2])
            self.write(name, *rest[:2])
        elif name == "load":
            self.state(rest[2])
            self.write(name, rest[0], *rest[1])
        elif name == "vote":
            self.write("yes" if rest[2] else "no", rest[0], *rest[1])
        elif name in ("release", "learn", "want"):
            self.write(name, rest[0], *rest[1])
        elif name == "bad":
            self.write(name, rest[0])
        else:
            self.write(name, *rest)

    def carry(self, plain, event):
        """An event and its reply, which it answers."""
        self.event(event)
        try:
            reply = plain.step(event)
        except NoNumber:
            reply = "no memory: it comes back, and is a begin"
        self.replies.append(reply)
        return reply

    def entries(self, plain):
        self.write("entries")
        self.replies.append(entries_text(plain.settled))

    def check(self, plain, whole):
        below = plain.next() + 1
        text = survey(plain, below, whole)
        self.write("tell" if self.tells else "sum", int(whole), below)
        self.replies.append(text if self.tells else str(sum_of(text)))


# Drafts of events.

def line(plain, grain, is_plain):
    """The next line begins."""
    return ("begin", ("line", plain.lines + 1), (grain, 1), is_plain)


def child(plain, parent, grain, is_plain):
    """The next child of a unit begins."""
    return ("begin", ("child", parent, len(plain.children(parent))), (grain, 2), is_plain)


def effect_of(plain, number, writes, result):
    """The effect of a running unit with these writes."""
    one = plain.unit(number)
    outcomes = [plain.outcome(kid.number) for kid in plain.children(number)]
    answers = [outcome for outcome in outcomes if outcome is not None]
    if one is None:
        return Effect(number, ("line", 1), ((0, 0), 1), answers, [], writes, result)
    return Effect(number, one.origin, one.call, answers, list(one.reads), writes, result)


# Worked lists.

def account(key):
    return (0, int(key))


def worked_event(plain, words):
    """The event of a row of a worked list."""
    name, *rest = words
    if name in ("line", "plain_line"):
        return line(plain, account(1), name == "plain_line")
    if name == "child":
        return child(plain, int(rest[0]), account(1), False)
    if name == "bad":
        return ("bad", plain.lines + 1, "args")
    if name in (READ, UPDATE):
        return ("grant", int(rest[0]), account(rest[1]), name)
    if name in ("refuse_read", "refuse_update"):
        return ("refuse", int(rest[0]), account(rest[1]), name[len("refuse_"):])
    if name == "finish":
        writes = [word.split("=") for word in rest[2:]]
        writes = [(account(key), (int(number),)) for key, number in writes]
        return ("finish", int(rest[0]), effect_of(plain, int(rest[0]), writes, int(rest[1])))
    if name == "end":
        return ("end_plain", int(rest[0]), effect_of(plain, int(rest[0]), [], int(rest[1])))
    if name == "snapshot":
        return ("end_snapshot", int(rest[0]), 3, int(rest[1]))
    if name in ("release", "learn", "want"):
        return (name, int(rest[0]), account(rest[1]))
    if name == "load":
        return ("load", int(rest[0]), account(rest[1]), (int(rest[2]),))
    if name in ("yes", "no"):
        return ("vote", int(rest[0]), account(rest[1]), name == "yes")
    return (name, *map(int, rest))


def worked_row(script, plain, words, reply):
    """A row of a worked list: its reply by hand is that of the rules."""
    if words[0] == "settled":
        script.entries(plain)
        said = script.replies[-1]
    else:
        said = script.carry(plain, worked_event(plain, words))
    if said != reply:
        raise SystemExit(f"core_lists: {' '.join(words)}: {reply!r} by hand, {said!r} by the rules")


def worked_lists(script):
    """A line that begins at the margin begins a list, over memory for two grains where it says so; the others have an event and the
    reply to it, with '->' between."""
    with open(os.path.join(TOP, "checks", "core_worked.txt"), encoding="utf-8") as file:
        rows = [row.rstrip() for row in file if row.strip() and not row.startswith("#")]
    plain = None
    for row in rows:
        if not row.startswith(" "):
            script.title(row)
            plain = script.open(1, 2 if row.startswith(IN_MEMORY) else None)
            continue
        words, reply = row.split("->")
        worked_row(script, plain, words.split(), reply.strip())


def many_units(script):
    """Seventy units that take no lock are two batches."""
    script.title("seventy units without locks are two batches")
    plain = script.open(1)
    rows = []
    for number in range(1, 71):
        rows += [(["line"], f"unit {number}"), (["finish", str(number), "1"], "done")]
    rows += [(["take"], "batch 1"), (["decide", "1"], "64 commit"), (["sealed", "1"], "done")]
    rows += [(["take"], "batch 2"), (["decide", "2"], "6 commit"), (["sealed", "2"], "done"), (["take"], "no")]
    settled = "; ".join(f"line {number} unit {number} done 1" for number in range(1, 71))
    for words, reply in rows + [(["settled"], settled)]:
        worked_row(script, plain, words, reply)


def last_number(script):
    """The last unit has the number below 2^63: memory is wanting for a next one, and its event comes back."""
    script.title("numbers of units end below two to the 63")
    last = UNIT_LIMIT - 1
    plain = script.open(last)
    worked_row(script, plain, ["line"], f"unit {last}")
    worked_row(script, plain, ["line"], "no memory: it comes back, and is a begin")


def access(script):
    """A core is an object of a turn cell, and an access for one who has it alone."""
    script.title("a core is an object and an access")
    script.open(1)
    for words, reply in [("object", "yes"), ("see", "1"), ("spoil 1", "done"), ("spoil 1", "no"), ("see", "2")]:
        script.write(words)
        script.replies.append(reply)


# Random lists.

class Draws:
    """Numbers drawn one after another, from a seed."""

    def __init__(self, seed):
        self.number = seed

    def draw(self, limit):
        """One more, below the limit, or 0."""
        self.number = (self.number * 6364136223846793005 + 1442695040888963407) % 2**64
        return (self.number >> 33) % limit if limit else 0

    def pick(self, found):
        """One of these, none where there is none."""
        at = self.draw(len(found))
        return found[at] if found else None

    def grain(self):
        at = self.draw(21)
        return GRAINS[4 if at == 0 else 3 if at <= 3 else 2 if at <= 9 else 1 if at <= 15 else 0]

    def mode(self):
        return UPDATE if self.draw(2) else READ

    def running(self, plain, is_plain, is_ready):
        """A running unit, of the plain ones or the others, where wanted without undecided children; 0 where there is none."""
        units = [one.number for one in plain.units if one.life == "running" and one.plain == is_plain]
        if is_ready:
            units = [number for number in units if plain.decided_children(number) is not None]
        return self.pick(units) or 0

    def unit(self, plain):
        """Any unit, some that aren't there."""
        return self.draw(plain.next() + 2)

    def outcome(self):
        if self.draw(12) == 0:
            return ABORTED
        if self.draw(6) == 0:
            return "funds"
        return self.draw(90)

    def writes(self, plain, unit):
        """Of most grains that the unit holds alone; now and then one that it doesn't hold, or one twice."""
        writes = []
        for grain in GRAINS:
            is_held = plain.mode_of(unit, grain) == UPDATE
            is_odd = self.draw(150) == 0
            is_left_out = self.draw(5) == 0
            if is_odd or (is_held and not is_left_out):
                writes.append((grain, (self.draw(90),)))
            if is_held and self.draw(60) == 0:
                writes.append((grain, (-1,)))
        return writes


def guided_grant(plain, draws):
    """One that applies, where a few tries find one."""
    unit, grain, mode = 0, GRAINS[0], READ
    for _ in range(6):
        is_plain = draws.draw(25) == 0
        unit = draws.running(plain, is_plain, False)
        grain = draws.grain()
        mode = draws.mode()
        answer = plain.ask(unit, grain, mode)
        if answer == ("free",):
            return ("grant", unit, grain, mode)
        if answer == ("absent",) and (unit, grain) not in plain.wanted:
            return ("want", unit, grain)
    if unit == 0 or draws.draw(3) == 0:
        return line(plain, grain, False)
    return ("grant", unit, grain, mode)


def guided_refusal(plain, draws):
    """One that applies, where some tries find one."""
    for _ in range(12):
        unit = draws.running(plain, False, False)
        grain = draws.grain()
        mode = draws.mode()
        if plain.ask(unit, grain, mode)[0] in ("dies", "doomed"):
            return ("refuse", unit, grain, mode)
    return guided_grant(plain, draws)


def guided_finish(plain, draws):
    unit = draws.running(plain, False, True)
    if unit == 0:
        return line(plain, GRAINS[1], False)
    writes = draws.writes(plain, unit)
    return ("finish", unit, effect_of(plain, unit, writes, draws.outcome()))


def guided_end(plain, draws):
    unit = draws.running(plain, True, True)
    if unit == 0:
        return guided_release(plain, draws)
    outcome = draws.outcome()
    if draws.draw(2) == 0:
        return ("end_snapshot", unit, draws.draw(9), outcome)
    effect = effect_of(plain, unit, [], outcome)
    if draws.draw(8) != 0:
        effect.reads = []
    return ("end_plain", unit, effect)


def guided_release(plain, draws):
    lock = draws.pick([lock for lock in plain.locks if not plain.is_running(lock[1])])
    return ("release", lock[1], lock[0]) if lock else guided_grant(plain, draws)


def true_load(plain, grain):
    """The grain comes into memory with its last committed version."""
    unit, state = plain.last_version(grain)
    return ("load", unit, grain, state)


def settler_event(plain, draws):
    """What the settler does next; now and then a decision is learnt out of turn."""
    if draws.draw(15) == 0:
        return ("learn", draws.unit(plain), draws.grain())
    name, *rest = plain.work()
    if name == "votes":
        return ("vote", rest[0], rest[1], draws.draw(6) != 0)
    if name == "decides":
        return ("decide", rest[0])
    if name == "seals":
        at = draws.draw(60)
        return ("doubt" if at == 0 else "not_sealed" if at <= 8 else "sealed", rest[0])
    if name == "learns":
        return ("learn", *rest)
    if name == "writes":
        return ("emitted",)
    if name == "loads":
        return true_load(plain, rest[0])
    return ("take",) if name == "takes" else guided_finish(plain, draws)


def strange_unit_event(plain, draws):
    """Any unit, grain and mode."""
    unit, grain, mode = draws.unit(plain), draws.grain(), draws.mode()
    at = draws.draw(7)
    if at < 6:
        return [
            ("grant", unit, grain, mode),
            ("refuse", unit, grain, mode),
            ("release", unit, grain),
            ("learn", unit, grain),
            ("want", unit, grain),
            ("load", unit, grain, (7,)) if plain.limit is None else true_load(plain, grain),
        ][at]
    return ("finish", unit, effect_of(plain, draws.unit(plain), [], 3))


def strange_line(plain, draws):
    number = plain.lines + draws.draw(3)
    if draws.draw(2) == 0:
        return ("bad", number, "args")
    parent = draws.unit(plain)
    index = draws.draw(2)
    origin = ("line", number) if draws.draw(2) == 0 else ("child", parent, index)
    grain = draws.grain()
    return ("begin", origin, (grain, 0), draws.draw(4) == 0)


def strange_batch_event(plain, draws):
    batch = draws.draw(plain.batches + 2)
    grain = draws.grain()
    yes = draws.draw(2) == 0
    at = draws.draw(40)
    if at <= 7:
        return ("vote", batch, grain, yes)
    for most, name in ((15, "decide"), (19, "sealed"), (22, "not_sealed"), (24, "doubt")):
        if at <= most:
            return (name, batch)
    return ("take",) if at <= 31 else ("halt",) if at == 32 else ("emitted",)


def stranger(plain, draws):
    at = draws.draw(4)
    if at == 0:
        return strange_line(plain, draws)
    return strange_batch_event(plain, draws) if at == 1 else strange_unit_event(plain, draws)


def new_unit(plain, draws):
    is_plain = draws.draw(8) == 0
    grain = draws.grain()
    if draws.draw(3) == 0:
        of_plain = draws.draw(5) == 0
        return child(plain, draws.running(plain, of_plain, True), grain, is_plain)
    return line(plain, grain, is_plain)


def next_event(plain, draws, past):
    at = draws.draw(100)
    if 92 <= at <= 94:
        back = draws.draw(draws.draw(30) + 1)
        return past[-1 - back] if back < len(past) else stranger(plain, draws)
    for most, guided in (
        (13, new_unit),
        (30, guided_grant),
        (34, guided_refusal),
        (44, guided_finish),
        (46, guided_end),
        (62, guided_release),
        (91, settler_event),
    ):
        if at <= most:
            return guided(plain, draws)
    return stranger(plain, draws)


SAYING_NO = ("no", "not", "held", "dies", "waits", "doomed")


def random_list(script, seed, base, count, limit=None):
    """A random list: how many of its events applied, and how many of its units stand in closed batches."""
    script.title(f"random list {seed}")
    plain, draws, past, applied = script.open(base, limit), Draws(seed), [], 0
    for at in range(count):
        event = next_event(plain, draws, past)
        past.append(event)
        applied += script.carry(plain, event).split()[0] not in SAYING_NO
        script.check(plain, at + 1 == count)
    return applied, plain.closed


def first_unit(seed):
    """The number of a list's first unit."""
    return 1 + seed % 3


def all_lists():
    """The script of all lists."""
    script = Script()
    worked_lists(script)
    many_units(script)
    last_number(script)
    access(script)
    applied, closed = 0, 0
    for seed in range(LISTS):
        more = random_list(script, seed, first_unit(seed), EVENTS)
        applied, closed = applied + more[0], closed + more[1]
    if applied < 2200 or closed < 120:
        raise SystemExit(f"core_lists: {applied} events apply, {closed} units closed: that shows too little")
    applied, closed = 0, 0
    for seed in range(LISTS, LISTS + LIMITED):
        more = random_list(script, seed, first_unit(seed), EVENTS, 1 + seed % 2)
        applied, closed = applied + more[0], closed + more[1]
    if applied < 1500 or closed < 100:
        raise SystemExit(f"core_lists: with a limit {applied} events apply, {closed} units closed: that shows too little")
    return script


def texts_of(script):
    return "".join(text + "\n" for text in script.lines), "".join(text + "\n" for text in script.replies)


def main(words):
    if words[:1] == ["--list"] and len(words) in (4, 5):
        seed, count, folder = int(words[1]), int(words[2]), words[3]
        script = Script(tells=words[4:] == ["tell"])
        random_list(script, seed, first_unit(seed), count)
        for name, text in zip(("script", "replies"), texts_of(script)):
            with open(os.path.join(folder, name), "w", encoding="utf-8") as file:
                file.write(text)
        return 0
    return write_or_compare("core_tests", texts_of(all_lists()), words)


if __name__ == "__main__":
    sys.exit(main(sys.argv[1:]))
