"""Random programs and requests, against a plain player:  checks/differential.py [ROUNDS [SEED]]

A round makes a program of random types and methods, whose calls join, get units of their own or run outside transactions, some of
them by `attempt`, and carries random requests by two runs, each of a random width and list of turns, and by one of 1, 2 or 16
workers. Then the log, which examples/reader reads, is played from its front, one unit after another, by plain_player, which knows
nothing of locks, versions or batches. Each unit gives its record's result over the states that those before it left, asks for the children that the log has
before it, and is answered what these gave; the grains end with the states that the folder holds; each request has one reply, which is
that of its record, or of a run outside transactions over what its children gave, and an aborted one has no record, and names a lock,
since no call on a file fails here; and replies stand in the log's order. The same seed gives the same rounds, but for what workers
make of theirs.
"""
import collections
import contextlib
import io
import json
import os
import random
import sys
import tempfile

from harness import TOP, Rows, run
from plain_player import ABORTED, Method, Type, play, text_of

sys.path.insert(0, os.path.join(TOP, "examples", "reader"))
import read  # noqa: E402

ROUNDS, SEED = 30, 7
KEYS = 2


def infix(operator, one, other):
    return ("infix", operator, one, other)


def name(it):
    return ("name", it)


def plain(value):
    return ("value", value)


def counting(limit, body):
    """Statements that carry out others so many times."""
    return [("let", "i", plain(0)), ("while", infix("<", name("i"), limit), [*body, ("give", "i", infix("+", name("i"), plain(1)))])]


def call(kind, place, method, *arguments):
    return ("call", kind, place, method, list(arguments))


def one_less(method):
    return call("edge", name("key"), method, infix("-", name("n"), plain(1)))


SIXTEEN = "sixteen letters."
ONE_MORE = ("return", infix("+", name("x"), plain(1)))
LONGER = ("give", "s", infix("+", name("s"), plain(SIXTEEN)))
ABOVE_ONE = infix(">", name("n"), plain(1))

# The last type of each program: its methods take as many frames, units of their own, nested or not, grains or steps, or as long a text, as
# they are told.
EDGE = Type("edge", {"seen": 0}, [
    Method("deep", ["n"], "createorjoin", "plain", [("if", ABOVE_ONE, [("let", "x", one_less("deep")), ONE_MORE], []), ("return", plain(1))]),
    Method("nest", ["n"], "create", "plain", [("if", ABOVE_ONE, [("attempt", "x", one_less("nest"), [ONE_MORE], [("return", name("x"))])], []), ("return", plain(1))]),
    Method("many", ["n"], "create", "plain", [*counting(name("n"), [("attempt", "x", call("edge", name("i"), "touch"), [], [])]), ("return", name("i"))]),
    Method("wide", ["n"], "create", "plain", [*counting(name("n"), [call("edge", name("i"), "look")]), ("return", name("i"))]),
    Method("spin", ["n"], "create", "plain", [*counting(name("n"), []), ("return", name("i"))]),
    Method("grow", ["n"], "create", "plain", [("let", "s", plain(SIXTEEN)), *counting(name("n"), [LONGER]), ("return", name("s"))]),
    Method("touch", [], "create", "update", [("set", "seen", infix("+", name("seen"), plain(1))), ("return", name("seen"))]),
    Method("look", [], "createorjoin", "read", [("return", name("seen"))]),
])
# About the most that each of them takes.
EDGES = {"deep": (31, 34), "nest": (2, 34), "many": (60, 66), "wide": (62, 66), "spin": (4996, 5001), "grow": (253, 258)}
# The faults behind them.
LIMITS = {"depth", "units", "grains", "budget", "length"}


class Writer:
    """Writes one method at random. It calls methods of the list `callees` alone, so that no program calls itself without end."""

    def __init__(self, draw, fields, callees):
        self.draw, self.fields, self.callees, self.names = draw, fields, callees, 0

    def method(self, at):
        draw = self.draw
        parameters = ["p", "q"][: draw.randrange(3)]
        kind = draw.choice(["plain", "read", "update", "update"])
        options = ["create"] * 4 + ["createorjoin"] * 6 + ["join"] + ["suppress", "suppress", "supported", "notallowed"] * (kind == "plain")
        self.kind = kind
        body = self.block(["key", *parameters], draw.randrange(1, 5), 2)
        return Method(f"m{at}", parameters, draw.choice(options), kind, [*body, ("return", self.value(["key", *parameters], 2))])

    def fresh(self):
        self.names += 1
        return f"x{self.names}"

    def value(self, there, depth):
        draw = self.draw
        if depth == 0 or draw.random() < 0.3:
            if draw.random() < 0.01:
                return plain(draw.choice(["a", "bc", 2**63 - 1]))
            fields = [] if self.kind == "plain" else self.fields
            return draw.choice([plain(draw.randrange(5)), name(draw.choice(there)), name(draw.choice([*fields, *there]))])
        if draw.random() < 0.1:
            return ("prefix", draw.choice("-!"), self.value(there, depth - 1))
        operator = draw.choice(["+"] * 24 + ["-"] * 8 + ["*", "*", "/", "%", "<", "<=", ">", ">=", "==", "!=", "&&", "||"])
        return infix(operator, self.value(there, depth - 1), self.value(there, depth - 1))

    def called(self, there):
        draw = self.draw
        kind, method = draw.choice(self.callees)
        place = draw.choice([*(plain(key) for key in range(KEYS)), *(plain(key) for key in range(KEYS)), name("key"), infix("%", self.value(there, 1), plain(KEYS))])
        return call(kind, place, method.name, *(self.value(there, 1) for _ in method.parameters))

    def block(self, there, count, depth):
        there, block = list(there), []
        for _ in range(count):
            block += self.statement(there, depth)
        return block

    def statement(self, there, depth):
        """A statement or two, which may add to the names that are there."""
        draw = self.draw
        roll = draw.random()
        if roll < 0.5 and self.callees:
            return [self.call_statement(there, depth)]
        if roll < 0.65 and self.kind == "update":
            return [("set", draw.choice(self.fields), self.value(there, 2))]
        if roll < 0.73 and depth > 0:
            return [("if", self.value(there, 1), self.block(there, draw.randrange(3), depth - 1), self.block(there, draw.randrange(2), depth - 1))]
        if roll < 0.77 and depth > 0:
            limit, count = self.fresh(), self.fresh()
            body = self.block(there, 1, 0)
            return [("let", limit, plain(draw.randrange(1, 4))), ("let", count, plain(0)),
                    ("while", infix("<", name(count), name(limit)), [("give", count, infix("+", name(count), plain(1))), *body])]
        if roll < 0.775:
            return [("if", self.value(there, 1), [("fail", draw.choice(["no", "never"]))], [])]
        if roll < 0.84 and len(there) > 1:
            return [("give", draw.choice(there[1:]), self.value(there, 2))]
        made = ("let", self.fresh(), self.value(there, 2))
        there.append(made[1])
        return [made]

    def call_statement(self, there, depth):
        draw = self.draw
        called = self.called(there)
        roll = draw.random()
        if roll < 0.3:
            return called
        made = self.fresh()
        if roll < 0.6 and depth > 0:
            return ("attempt", made, called, self.block([*there, made], draw.randrange(3), depth - 1), self.block(there, draw.randrange(2), depth - 1))
        there.append(made)
        return ("let", made, called)


def random_program(draw):
    """Types of random methods, each of which calls those that were made before it, and the type `edge`."""
    kinds, callees = [], []
    for at in range(draw.randrange(2, 4)):
        fields = {f"f{index}": draw.randrange(10) for index in range(draw.randrange(1, 4))}
        methods = []
        for index in range(draw.randrange(2, 5)):
            methods.append(Writer(draw, list(fields), callees[-6:]).method(index))
            callees.append((f"t{at}", methods[-1]))
        kinds.append(Type(f"t{at}", fields, methods))
    return [*kinds, EDGE]


def random_request(draw, program):
    """A call and its arguments: mostly of the program."""
    roll = draw.random()
    if roll < 0.02:
        return "t0/0.nothing", []
    if roll < 0.12:
        method = draw.choice(list(EDGES))
        return f"edge/0.{method}", [draw.randrange(*EDGES[method])]
    # Mostly of the types whose methods call others.
    kind = draw.choice([*program[:-1], program[-2], program[-2], program[-2]])
    method = draw.choice([it for it in kind.methods if it.option != "join" or draw.random() < 0.1] or kind.methods)
    return f"{kind.name}/{draw.randrange(KEYS)}.{method.name}", [draw.choice([*range(-1, 5), "a"][: 6 + (draw.random() < 0.02)]) for _ in method.parameters]


def random_words(draw, part):
    if part == 3:
        return ["run", "--workers", draw.choice(["1", "2", "16"])]
    words = ["run", "--width", str(draw.choice([1, 2, 3, 4, 4, 8, 8, 16, 64]))]
    if draw.random() < 0.9:
        most = draw.choice([2, 5, 10, 50])
        words += ["--turns", ",".join(str(draw.randrange(most)) for _ in range(draw.randrange(1, 800)))]
    return words


def read_folder(folder):
    """What the reader says of a folder."""
    with contextlib.redirect_stdout(io.StringIO()) as told:
        read.read(folder)
    return [json.loads(line) for line in told.getvalue().splitlines()]


class Replay:
    """What a folder's log has stood for up to here."""

    def __init__(self, program):
        self.program, self.store, self.units, self.count, self.last = program, {}, {}, 0, 0
        self.wrong, self.told = [], collections.Counter()

    def expect(self, holds, what):
        if not holds:
            self.wrong.append(what)

    def answer_from(self, parent):
        """What the children of a unit gave, as the log before here has them. One without a record was aborted."""

        def ask(index, call, arguments, depth):
            child = self.units.get((parent, index))
            if child is None:
                return ABORTED
            self.expect((child["call"], child["args"], child["depth"]) == (call, arguments, depth), f"{child} is another child than {call} {arguments}")
            return child["result"]

        return ask

    def play_record(self, record):
        """Plays a unit of the log behind those before it."""
        answers = []

        def ask(*asked):
            answers.append(self.answer_from(record["unit"])(*asked))
            return answers[-1]

        result, written, _, _ = play(self.program, self.store, record["call"], record["args"], record.get("depth", 1), ask)
        self.expect(result == record["result"], f"{record} gives {result}")
        self.expect(answers == record["answers"], f"{record} is answered {answers}")
        self.expect(record["unit"] > self.last, f"the number of {record} was given before")
        self.store.update(written)
        self.told["children"] += "parent" in record

    def check_reply(self, reply, request, record):
        """A reply is that of its record, or of a run outside transactions, or names why there is none."""
        kinds = [kind for kind in ("reply", "fault", "aborted", "bad") if kind in reply]
        self.told[kinds[0] if kinds else "none"] += 1
        if reply.get("fault") in LIMITS:
            self.told[f"fault {reply['fault']}"] += 1
        if kinds[:1] == ["bad"]:
            return self.expect("unit" not in reply and request[0] == "t0/0.nothing", f"{reply} to {request}")
        if kinds[:1] == ["aborted"]:
            return self.expect(record is None and reply["aborted"] == "lock", f"{reply} beside {record}")
        said = reply["reply"] if "reply" in reply else {"fault": reply["fault"]}
        if record is not None:
            return self.expect((record["call"], record["args"], record["result"]) == (*request, said), f"{reply} beside {record}")
        result, _, _, is_transaction = play(self.program, self.store, *request, 1, self.answer_from(reply["unit"]))
        self.expect(result == said and not is_transaction, f"{reply} to {request}, which gives {result}")

    def go_on(self, requests, ended, told):
        """One run more: its requests, how it ended, and what the reader says of the folder afterwards."""
        self.wrong = []
        self.expect((ended.number, ended.errors) == (0, b""), f"the run ended with {ended.number}: {ended.errors}")
        records = [it for it in told if "unit" in it]
        added = records[self.count :]
        for record in added:
            self.play_record(record)
            if "parent" in record:
                self.units[record["parent"], record["index"]] = record
        self.check_replies(requests, [json.loads(line) for line in ended.output.splitlines()], {it["line"]: it for it in added if "line" in it})
        self.count, self.last = len(records), max([self.last, *(it["unit"] for it in added)])
        states = {it["grain"]: it["state"] for it in told if "grain" in it}
        played = {f"{kind}/{key}": state for (kind, key), state in self.store.items()}
        self.expect(played == states, f"the states are {states}, and {played} were played")
        return self.wrong

    def check_replies(self, requests, replies, records):
        self.expect(sorted(it["n"] for it in replies) == list(range(1, len(requests) + 1)), "not one reply for each request")
        order = [it["n"] for it in replies if it["n"] in records]
        self.expect(order == list(records), f"replies in the order {order}, and records in that of {list(records)}")
        for reply in replies:
            record = records.get(reply["n"])
            self.expect(record is None or record["unit"] == reply.get("unit"), f"{reply} beside {record}")
            self.check_reply(reply, requests[reply["n"] - 1], record)


def lines_of(requests):
    return b"".join(json.dumps({"args": arguments, "call": call}).encode() + b"\n" for call, arguments in requests)


def check_round(rows, what, draw):
    """One round: what the replies were, by their kinds."""
    program = random_program(draw)
    replay = Replay(program)
    with tempfile.TemporaryDirectory() as folder:
        rows.row(f"{what}: init", run(folder, "init", given=text_of(program).encode()), (0, b"", b""))
        for part in (1, 2, 3):
            requests = [random_request(draw, program) for _ in range(draw.randrange(1, 40))]
            words = random_words(draw, part)
            ended = run(folder, *words, given=lines_of(requests))
            rows.row(f"{what}, run {part}: {' '.join(words)}", replay.go_on(requests, ended, read_folder(folder)), [])
    return replay.told


def main(rounds=ROUNDS, seed=SEED):
    rows, told = Rows("differential"), collections.Counter()
    for at in range(int(rounds)):
        told += check_round(rows, f"round {at} of seed {seed}", random.Random(f"{seed} {at}"))
    print("differential:", ", ".join(f"{count} {kind}" for kind, count in sorted(told.items())))
    rows.row("each kind of reply came", {"reply", "fault", "aborted", "bad", "children"} - set(told), set())
    rows.row("each limit was reached", {f"fault {limit}" for limit in LIMITS} - set(told), set())
    rows.end()


if __name__ == "__main__":
    main(*sys.argv[1:])
