#!/usr/bin/env python3
"""Reads a silo's folder, by docs/FORMATS.md alone:  examples/reader/read.py FOLDER

Prints each record and each upgrade of the log, then the state of each grain that a record or the checkpoint names, then the next unit's
number, of a folder of either format. Or it says that the folder is no silo, or which file is damaged and where. Of a program it takes the
types, fields and methods, and checks no more.
"""
import collections, json, re, struct, sys

class Damaged(Exception):
    pass

# What the formats differ in: the most bytes of a text, the most fields of a state, the most bytes of a version, and whether a body says its
# session. A body that doesn't counts as one of session 1.
Format = collections.namedtuple("Format", "text fields version says_session")
FORMATS = {b"OTXLOG01": Format(256, 16, 4154, False), b"OTXLOG02": Format(4096, 64, 262346, True)}

class Bytes:
    """A part of a file, read from its front, with places that count in the file."""

    def __init__(self, name, held, at, end, form=FORMATS[b"OTXLOG02"]):
        self.name, self.held, self.at, self.end, self.form = name, held, at, end, form

    def need(self, holds, at):
        if not holds:
            raise Damaged(f"{self.name} is damaged at {at}")

    def take(self, count):
        self.need(count <= self.end - self.at, self.at)
        self.at += count
        return self.held[self.at - count : self.at]

    def number(self, kind, allows=lambda number: True):
        at = self.at
        [number] = struct.unpack("<" + kind, self.take(struct.calcsize("<" + kind)))
        self.need(allows(number), at)
        return number

    def text(self):
        count, at = self.number("H", lambda count: count <= self.form.text), self.at
        try:
            return self.take(count).decode()
        except UnicodeDecodeError:
            self.need(False, at)

    def value(self):
        return self.text() if self.number("B", lambda tag: tag < 2) else self.number("q")

    def answer(self, least=0):
        tag = self.number("B", lambda tag: least <= tag <= 2)
        return "aborted" if tag == 0 else self.value() if tag == 1 else {"fault": self.text()}

    def session(self, allows=lambda session: True):
        return self.number("Q", lambda session: session < 2**63 and allows(session)) if self.form.says_session else 1

    def ended(self):
        self.need(self.at == self.end, self.at)

# Where a program's text is none: never, for this reader. A caller may know better.
def no_fault(_text):
    return None

Type = collections.namedtuple("Type", "name at fields methods")

def literal(tokens):
    """The value that a field begins with."""
    if tokens[0].startswith('"'):
        return tokens[0][1:-1].encode("latin-1").decode(errors="replace")
    return -int(tokens[1]) if tokens[0] == "-" else int(tokens[0])

def types_of(text):
    """Each type's name and where it stands, its fields with the values that they begin with, and the names and counts of parameters of its
    methods."""
    found = [one for one in re.finditer(r'#[^\n]*|("[^"]*"|\w+|[^\s\w])', text.decode("latin-1")) if one[1]]
    tokens = [one[1] for one in found]
    types, depth = [], 0
    for at, token in enumerate(tokens):
        depth += (token == "{") - (token == "}")
        if depth == 0 and token == "type":
            types.append(Type(tokens[at + 1], found[at + 1].start(), {}, []))
        elif depth == 1 and token == "field":
            types[-1].fields[tokens[at + 1]] = literal(tokens[at + 3 : at + 5])
        elif depth == 1 and token == "method":
            types[-1].methods.append((tokens[at + 1], (tokens.index(")", at) - at - 2) // 2))
    return types

def refused_at(old, new, end):
    """Where the new types don't begin with the old ones' names: at the first that differs, or at the text's end where some are missing."""
    for at, kind in enumerate(old):
        if at == len(new):
            return end
        if new[at].name != kind.name:
            return new[at].at
    return None

def record_of(body, types):
    unit = body.number("Q", lambda unit: 0 < unit < 2**63)
    if body.number("B", lambda tag: tag < 2):
        origin = {"parent": body.number("Q", lambda unit: unit < 2**63), "index": body.number("I"), "depth": body.number("H")}
    else:
        origin = {"line": body.number("I")}
    kind, key = body.number("H", lambda kind: kind < len(types)), body.number("I")
    name, methods = types[kind].name, types[kind].methods
    method, parameters = methods[body.number("H", lambda method: method < len(methods))]
    arguments = [body.value() for _ in range(body.number("H", lambda count: count == parameters))]
    answers = [body.answer() for _ in range(body.number("H", lambda count: count <= 64))]
    result, writes = body.answer(1), []
    for _ in range(body.number("H", lambda count: count <= 64)):
        at, grain = body.at, (body.number("H", lambda kind: kind < len(types)), body.number("I"))
        body.need(not writes or writes[-1][0] < grain, at)
        writes.append((grain, body.number("Q"), body.number("I")))
    told = {"unit": unit, **origin, "call": f"{name}/{key}.{method}", "args": arguments, "answers": answers, "result": result}
    return unit, told, writes

def bodies_of(name, held, form):
    """Each open block's body, and then one of no bytes where the log ends; beside each whether it is a block's."""
    gate = 15
    while held[gate] == 1:
        block = Bytes(name, held, gate + 1, len(held), form)
        block.need(gate + 5 <= len(held), gate + 1)
        size = block.number("I")
        block.need(gate + 6 + size <= len(held), gate + 1)
        yield True, Bytes(name, held, gate + 5, gate + 5 + size, form)
        gate += 5 + size
    yield False, Bytes(name, held, gate, gate, form)

def checkpoint_of(bodies, types):
    """The count, the next unit's number, the session, and the versions that it names."""
    head, writes, more = None, [], 1
    while more:
        _is_block, body = next(bodies)
        more = body.number("B", lambda flag: flag < 2)
        count = body.number("Q", lambda count: count < 2**63 and (head is None or count == head[0]))
        following = body.number("Q", lambda unit: 0 < unit <= 2**63 and (head is None or unit == head[1]))
        session = body.session(lambda session: head is None or session == head[2])
        head = count, following, session
        for _ in range(body.number("I", lambda count: count <= 65536)):
            at, grain = body.at, (body.number("H", lambda kind: kind < len(types)), body.number("I"))
            body.need(not writes or writes[-1][0] < grain, at)
            writes.append((grain, body.number("Q"), body.number("I")))
        body.ended()
    return *head, writes

UPGRADE = 2**32 - 1

def upgrade_of(body, types, fault_of):
    """The text of an upgrade's body behind its mark, and the program's types. A text that is none comes first, then one whose types don't
    go on, then what stands behind it."""
    size = body.number("I", lambda size: size <= 262144)
    at, text = body.at, body.take(size)
    fault = fault_of(text)
    body.need(fault is None, at + (fault or 0))
    new = types_of(text)
    other = refused_at(types, new, size)
    body.need(other is None, at + (other or 0))
    return text, new

def entries_of(bodies, programs, session, fault_of):
    """Each record, and each upgrade: its program comes to the others then. Sessions never fall."""
    for is_block, body in bodies:
        if is_block:
            last = session
            session = body.session(lambda here: last <= here)
            count = body.number("I", lambda count: count <= 64 or count == UPGRADE)
            if count == UPGRADE:
                text, new = upgrade_of(body, programs[-1], fault_of)
                yield None, {"session": session, "upgrade": len(text)}, []
                programs.append(new)
            else:
                for unit, told, writes in [record_of(body, programs[-1]) for _ in range(count)]:
                    yield unit, {"session": session, **told}, writes
            body.ended()

def carried(state, kind, programs):
    """A state, carried to each of these programs in turn: a field of the same name keeps its value, any other begins anew."""
    for types in programs:
        state = {field: state.get(field, first) for field, first in types[kind].fields.items()}
    return state

def state_of(name, held, form, offset, length, unit, fields):
    version = Bytes(name, held, offset, offset + length, form)
    version.need(length <= form.version and offset + length <= len(held), offset)
    version.number("Q", lambda found: 0 < found < 2**63 if unit is None else found == unit)
    version.number("H", lambda count: count == len(fields) <= form.fields)
    state = {field: version.value() for field in fields}
    version.ended()
    return state

def live_of(managers):
    """The slot whose files count and its format's name, by what both manager files hold; nothing where neither is a silo's."""
    slots = [(struct.unpack("<I", held[9:13])[0], -slot, held[1:9]) for slot, held in enumerate(managers)
             if len(held) >= 16 and held[0] == 1 and held[1:9] in FORMATS]
    return (-max(slots)[1], max(slots)[2]) if slots else None

def found_in(folder, fault_of=no_fault):
    """The records and upgrades, the state of each grain, and the next unit's number. None where the folder is no silo; the first damage is
    raised. Where a text is no program, `fault_of` says."""

    def file(name):
        try:
            with open(f"{folder}/{name}", "rb") as it:
                return it.read()
        except FileNotFoundError:
            return b""

    found = live_of([file("manager-0.otx"), file("manager-1.otx")])
    if found is None:
        return None
    live, form = found[0], FORMATS[found[1]]
    manager = file(f"manager-{live}.otx")
    program = Bytes(f"program-{live}.otx", held := file(f"program-{live}.otx"), 0, len(held))
    program.need(len(held) >= 4, len(held))
    size = program.number("I", lambda size: size <= 262144)
    program.need(size <= len(held) - 4, len(held))
    programs = [types_of(program.take(size))]
    header = Bytes(f"manager-{live}.otx", manager, 13, 15)
    begins = header.number("B", lambda byte: byte < 2)
    header.number("B", lambda byte: byte == 0)
    bodies = bodies_of(f"manager-{live}.otx", manager, form)
    _count, following, session, writes = checkpoint_of(bodies, programs[0]) if begins else (0, 1, 0, [])
    entries, named = [], [(grain, offset, length, None, 0) for grain, offset, length in writes]
    for unit, told, writes in entries_of(bodies, programs, session, fault_of):
        entries.append(told)
        named += [(grain, offset, length, unit, len(programs) - 1) for grain, offset, length in writes]
        following = max(following, unit + 1) if unit else following
    files, states = {}, {}
    for (kind, key), offset, length, unit, number in sorted(named, key=lambda one: one[0]):
        name = f"grain-{live}-{kind}-{key}.otx"
        if name not in files:
            files = {name: file(name)}
        state = state_of(name, files[name], form, offset, length, unit, programs[number][kind].fields)
        states[f"{programs[-1][kind].name}/{key}"] = carried(state, kind, programs[number + 1 :])
    return entries, states, following

def read(folder):
    found = found_in(folder)
    if found is None:
        return print("no silo")
    entries, states, following = found
    for told in entries:
        print(json.dumps(told))
    for grain, state in states.items():
        print(json.dumps({"grain": grain, "state": state}))
    print(json.dumps({"next_unit": following}))

if __name__ == "__main__":
    if len(sys.argv) != 2:
        sys.exit(__doc__)
    try:
        read(sys.argv[1])
    except Damaged as damage:
        sys.exit(str(damage))
