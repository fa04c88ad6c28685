#!/usr/bin/env python3
"""Writes the cases of crates/opening_tests and what must come out, or looks whether those there are these:  checks/opening_cases.py [--check]

Most rows are worked out by hand from docs/FORMATS.md. A folder of 20 records over 5 grains, changed byte by byte and cut at each
length, is answered by the second reader below: plain walks by the tables of docs/FORMATS.md."""
import sys

from harness import FIRST_PROGRAM as TEXT
from harness import write_or_compare

CASES, TOLD = [], []
BANK = (TEXT[:-1] + "method withdraw(n) createorjoin update { set balance = balance - n; return balance; } } "
        "type atm { method transfer(a, b, n) create plain "
        "{ call account/a.withdraw(n); call account/b.deposit(n); return n; } }")
# Accounts have two fields and two methods with one parameter, desks one field and one method with two.
TYPES = ("type account { field balance = 0; field note = \"\"; "
         "method deposit(n) createorjoin update { set balance = balance + n; return balance; } "
         "method rename(text) createorjoin update { set note = text; return note; } } "
         "type desk { field served = 0; method serve(by, n) createorjoin update { set served = served + n; return by; } }")


def in_format(number):
    """From here on folders have this format, and are opened in it. All that a block has stands eight places later in format 2, behind
    its session."""
    global FORMAT, OPEN, SHIFT, HEADER, MANAGER, OPENED, OPENED_OLD, FIRST, LAST
    FORMAT, OPEN, SHIFT = number, {1: "open-old", 2: "open"}[number], {1: 0, 2: 8}[number]
    HEADER = header_of(number)
    MANAGER = add_block(HEADER + b"\0", 1, DEPOSIT)
    assert len(MANAGER) == 89 + SHIFT
    OPENED = f"{opened(1, 2, 88 + SHIFT)}; 0/1 {VERSION[8:].hex()} to 19"
    OPENED_OLD = f"{opened(1, 2, 88)}; 0/1 {VERSION[8:].hex()} to 19"
    FIRST, LAST = piece(1, 3, 4, [ONE]), piece(0, 3, 4, [TWO])


def header_of(number):
    return bytes([1]) + b"OTXLOG0%d" % number + bytes(6)


def opened(count, following, gate, session=1):
    return f"{count} records, next unit {following}, session {session}, gate {gate}"


def session_bytes(session):
    return num(session, 8) if FORMAT == 2 else b""


def manager_at(place):
    """Damage at this place of format 1's manager file, whose first block begins at 16."""
    return f"manager at {place if place < 20 else place + SHIFT}"


def case(line, told=None):
    CASES.append(line)
    TOLD.append(line if told is None else f"{line} -> {told}")


def title(text):
    if CASES:
        case("")
    case("# " + text)


def put(name, content):
    case(f"put {name} {content.hex()}".rstrip())


def num(number, width):
    return number.to_bytes(width, "little")


def integer(number):
    return b"\0" + num(number, 8)


def words(text):
    return num(len(text.encode()), 2) + text.encode()


def text_value(text):
    return b"\1" + words(text)


def grain_bytes(grain):
    return num(grain[0], 2) + num(grain[1], 4)


def add_body(manager, body):
    """The manager file with its last gate open, and the block of this body behind it."""
    return manager[:-1] + b"\1" + num(len(body), 4) + body + b"\0"


def add_block(manager, count, records, session=1):
    return add_body(manager, session_bytes(session) + num(count, 4) + records)


def piece(more, count, following, writes, session=1):
    """The body of a checkpoint's piece."""
    body = bytes([more]) + num(count, 8) + num(following, 8) + session_bytes(session) + num(len(writes), 4)
    return body + b"".join(grain_bytes(grain) + num(offset, 8) + num(length, 4) for grain, offset, length in writes)


def with_pieces(*bodies):
    """The manager file whose log begins with these pieces of a checkpoint."""
    manager = changed(HEADER, 13, 1) + b"\0"
    for body in bodies:
        manager = add_body(manager, body)
    return manager


def with_generation(manager, number):
    return manager[:9] + num(number, 4) + manager[13:]


# The first deposit: type 0, key 1, method 0 with the argument 5, as unit 1 and line 1, and its version.
VERSION = num(1, 8) + num(1, 2) + integer(5)
DEPOSIT = (num(1, 8) + b"\0" + num(1, 4) + grain_bytes((0, 1)) + num(0, 2) + num(1, 2) + integer(5) + num(0, 2)
           + b"\1" + integer(5) + num(1, 2) + grain_bytes((0, 1)) + num(0, 8) + num(19, 4))
EMPTY = opened(0, 1, 15, 0)


def lay_deposit():
    case("new")
    case("program " + TEXT)
    put("manager", MANAGER)
    put("0/1", VERSION)


def changed(content, at, byte):
    return content[:at] + bytes([byte]) + content[at + 1:]


def openings():
    title("The first deposit is opened, by one sync of its manager file.")
    lay_deposit()
    case(OPEN, OPENED)
    case("syncs", "1")
    title("A manager file that is cut is no silo, or damaged at its block.")
    if FORMAT == 2:
        runs("cuts manager", ["no silo"] * 16 + ["manager at 16"] * (73 + SHIFT))
    title("A changed byte of the manager file is named where it counts. At 72 it names another grain's file, at 80 in format 2.")
    for at, byte, told in [
            (0, 2, "no silo"), (8, 48, "no silo"), (12, 9, OPENED), (15, 0, EMPTY), (15, 255, EMPTY),
            (16, 69 + SHIFT, "manager at 16")] + ZERO_ROWS:
        put("manager", changed(MANAGER, at, byte))
        case(OPEN, told)
    for at, byte, told in [
            (20, 255, manager_at(20)), (24, 255, "0/1 at 0"), (24, 0, manager_at(24)), (31, 255, manager_at(24)),
            (31, 128, manager_at(24)), (32, 255, manager_at(32)), (37, 255, manager_at(37)), (43, 255, manager_at(43)),
            (45, 255, manager_at(45)), (47, 3, manager_at(47)), (47, 255, manager_at(47)), (56, 255, manager_at(56)),
            (58, 0, manager_at(58)), (58, 255, manager_at(58)), (59, 255, manager_at(59)), (68, 255, manager_at(68)),
            (70, 255, manager_at(70)), (72, 255, "0/255 at 0"), (76, 1, "0/1 at 1"), (84, 18, "0/1 at 11"), (88, 7, OPENED)]:
        put("manager", changed(MANAGER, at + SHIFT, byte))
        case(OPEN, told)
    put("manager", MANAGER)
    title("A changed byte of the grain's file.")
    for at, byte, told in [(0, 2, "0/1 at 0"), (8, 2, "0/1 at 8"), (10, 9, "0/1 at 10"),
                           (18, 1, OPENED.replace("00000000 to", "00000001 to"))]:
        put("0/1", changed(VERSION, at, byte))
        case(OPEN, told)
    title("A damaged program file is named.")
    lay_deposit()
    for content, place in [(b"", 0), (b"\4\0\0", 3), (b"\4\0\0\0typ", 7), (b"\1\0\4\0", 0), (b"\4\0\0\0type", 8)]:
        put("program", content)
        case(OPEN, f"program at {place}")
    title("Each call of an opening fails in turn, and the same call is then made again.")
    lay_deposit()
    for call, name, count in OPENING_CALLS:
        for nth in range(1, count + 1):
            case(f"fail {call} {name} {nth}")
            case(OPEN, f"fault of {name}")
            case(OPEN, OPENED)
    if FORMAT == 2:
        title("An opening that stops after each of its calls leaves the folder.")
        case("stopped-open 1", "so after each")
    other_slot()


def other_slot():
    title("The other slot's manager file is looked at, synced where it has 16 bytes or more, "
          "and not live where its generation isn't greater.")
    lay_deposit()
    for content, syncs in [(HEADER, 1), (bytes(16), 3), (MANAGER, 5)]:
        put("manager-1", content)
        case(OPEN, OPENED)
        case("syncs", str(syncs))
    for call in ("length", "sync"):
        case(f"fail {call} manager-1 1")
        case(OPEN, "fault of manager-1")
        case(OPEN, OPENED)
    if FORMAT == 2:
        case("stopped-open 1", "so after each")
    title("With no silo in slot 0 that of slot 1 is opened, which has no program here.")
    put("manager", b"")
    case(OPEN, "program-1 at 0")
    case("fail length manager-1 1")
    case(OPEN, "fault of manager-1")
    case(OPEN, "program-1 at 0")


def transfer():
    title("A transfer of 2 from account 1 to account 2 behind the first deposit, as unit 2 and line 2, with both accounts.")
    record = (num(2, 8) + b"\0" + num(2, 4) + grain_bytes((1, 0)) + num(0, 2) + num(3, 2)
              + integer(1) + integer(2) + integer(2) + num(0, 2) + b"\1" + integer(2) + num(2, 2)
              + grain_bytes((0, 1)) + num(19, 8) + num(19, 4) + grain_bytes((0, 2)) + num(0, 8) + num(19, 4))
    states = [num(1, 2) + integer(left) for left in (3, 2)]
    case("new")
    case("program " + BANK)
    put("manager", add_block(MANAGER, 1, record))
    put("0/1", VERSION + num(2, 8) + states[0])
    put("0/2", num(2, 8) + states[1])
    case(OPEN, f"{opened(2, 3, 197 + 2 * SHIFT)}; 0/1 {states[0].hex()} to 38; 0/2 {states[1].hex()} to 19")


def makings():
    title("A made silo has the text and an empty log, is opened, and is a silo then.")
    for text in ["", TEXT]:
        case("new")
        case(f"input {text}".rstrip())
        case("init", "made")
        case("show program", (num(len(text), 4) + text.encode()).hex())
        case("show manager", (HEADER + b"\0").hex())
        case(OPEN, EMPTY)
        case(f"input {text}".rstrip())
        case("init", "the folder is a silo")
    title("A text that is no program is named at its place, and nothing is written.")
    deep = "type a { method m() create plain { " + "if 1 { " * 31
    for text, told in [
            ("type a {", "Unparsed(Unexpected { at: 8 })"), ("type A", "Unparsed(BadToken { at: 5 })"),
            ("type a { field x = 01; }", "Unparsed(Unexpected { at: 20 })"),
            ("type a { } type a { }", "Unchecked(TwiceNamed { at: 16 })"),
            ("type a { method m() create plain { return x; } }", "Unchecked(UnknownName { at: 42 })"),
            (deep, "Unparsed(TooDeep { at: 250 })")]:
        case("new")
        case("input " + text)
        case("init", told)
        case("show program", "none")
        case("show manager", "none")
    title("The longest text is taken, and one byte more is not.")
    for count, told in [(262144, "made"), (262145, "the input is too long")]:
        case("new")
        case(f"blanks {count}")
        case("init", told)
    title("Each call of a making fails in turn, and the same call is then made again.")
    case("new")
    case("input " + TEXT)
    case("fail pull input 1")
    case("init", "the input couldn't be read")
    for call, name, nth, again in [
            ("length", "manager", 1, "made"), ("write", "manager", 1, "made"), ("sync", "manager", 1, "made"),
            ("write", "program", 1, "made"), ("write", "program", 2, "made"), ("sync", "program", 1, "made"),
            ("write", "manager", 2, "made"), ("sync", "manager", 2, "made"), ("write", "manager", 3, "made"),
            ("sync", "manager", 3, "the folder is a silo")]:
        case("new")
        case("input " + TEXT)
        case(f"fail {call} {name} {nth}")
        case("init", f"fault of {name}")
        case("input " + TEXT)
        case("init", again)
        case(OPEN, EMPTY)
    title("A making that stops after each of its calls leaves no silo or a new one.")
    case("stopped-init " + TEXT, "so after each")


def runs(line, answers):
    """The answers to a file's changes from place 0 on: each at the first place that has it."""
    case(line, "")
    last = None
    for at, told in enumerate(answers):
        if told != last:
            TOLD.append(f"  {at}: {told}")
            last = told


def deposits(offsets, length):
    """A manager file in which unit u wrote account 1 at the u-th offset, 50 records a block."""
    manager, records, count = HEADER + b"\0", b"", 0
    for unit, offset in enumerate(offsets, 1):
        records += DEPOSIT_FRONT(unit) + num(offset, 8) + num(length, 4)
        count += 1
        if count == 50 or unit == len(offsets):
            manager, records, count = add_block(manager, count, records), b"", 0
    return manager


def DEPOSIT_FRONT(unit):
    return (num(unit, 8) + b"\0" + num(1, 4) + grain_bytes((0, 1)) + num(0, 2) + num(1, 2) + integer(5) + num(0, 2)
            + b"\1" + integer(unit) + num(1, 2) + grain_bytes((0, 1)))


def pieces():
    title("Versions that stand one behind the other are read at once, others by themselves, and each grain's last one once more for its state: the read behind these fails nobody.")
    for offsets, reads in [([0], 1), ([0, 19, 38], 1), ([1, 20, 39], 1), ([0, 20, 39], 2), ([0, 20, 40], 3), ([19, 38, 0], 2),
                           ([38, 19, 0], 3)]:
        grain = bytearray(b"\7" * (max(offsets) + 19))
        for unit, offset in enumerate(offsets, 1):
            grain[offset:offset + 19] = num(unit, 8) + num(1, 2) + integer(unit)
        manager, units = deposits(offsets, 19), len(offsets)
        case("new")
        case("program " + TEXT)
        put("manager", manager)
        put("0/1", bytes(grain))
        told = (f"{opened(units, units + 1, len(manager) - 1)}; "
                f"0/1 {(num(1, 2) + integer(units)).hex()} to {len(grain)}")
        failing_reads(reads, told)
    title("One read has at most 65,536 bytes: 16 versions of 4,096 bytes, and the last one a byte longer.")
    for longer, reads in [(0, 1), (1, 2)]:
        wide(longer, reads)
    if FORMAT == 1:
        return
    title("A run of versions that is cut is damaged at its first version that is gone.")
    case("new")
    case("program " + TEXT)
    put("manager", deposits([0, 19, 38, 57, 76], 19))
    put("0/1", b"".join(num(unit, 8) + num(1, 2) + integer(unit) for unit in range(1, 6)))
    runs("cuts 0/1", [f"0/1 at {cut // 19 * 19}" for cut in range(95)])


def failing_reads(reads, told):
    """Reads of an opening, and behind them the one that brings the last state."""
    for nth in range(1, reads + 1):
        case(f"fail read 0/1 {nth}")
        case(OPEN, "fault of 0/1")
    case(f"fail read 0/1 {reads + 2}")
    case(OPEN, told)


def lay_wide(count, sizes):
    """Versions of a type of so many fields, whose texts are about as long as each other: a version has so many bytes in all. The manager
    file, and the last state in hexadecimal."""
    fields = "".join(f"field f{at} = \"\"; " for at in range(count))
    case("new")
    case(f"program type wide {{ {fields}method note(n) createorjoin update {{ set f0 = n; return n; }} }}")
    offsets = [sum(sizes[:at]) for at in range(len(sizes))]
    records = b"".join(DEPOSIT_FRONT(unit) + num(offset, 8) + num(size, 4)
                       for unit, (offset, size) in enumerate(zip(offsets, sizes), 1))
    manager = add_block(HEADER + b"\0", len(sizes), records)
    put("manager", manager)
    letters = [size - 10 - 3 * count for size in sizes]
    fills = [[(left + at) // count for at in range(count)] for left in letters]
    spelled = [" ".join(f"01{num(fill, 2).hex()} 61*{fill}" for fill in row) for row in fills]
    case("put 0/1 " + " ".join(f"{num(unit, 8).hex()}{num(count, 2).hex()} {row}" for unit, row in enumerate(spelled, 1)))
    state = num(count, 2) + b"".join(b"\1" + num(fill, 2) + b"a" * fill for fill in fills[-1])
    return manager, state.hex()


def wide(longer, reads):
    """A type of 16 fields, each with about 256 letters."""
    sizes = [4096] * 15 + [4096 + longer]
    manager, state = lay_wide(16, sizes)
    failing_reads(reads, f"{opened(16, 17, len(manager) - 1)}; 0/1 {state} to {65536 + longer}")


# A folder with 20 records over 5 grains.
GRAINS = [(0, 1), (0, 2), (0, 258), (1, 0), (1, 1)]


def many_records():
    """The manager file, and the grains' files in their order. The units 1 to 20, in blocks of up to three."""
    files = {grain: b"" for grain in GRAINS}
    manager, body, count = HEADER + b"\0", b"", 0

    def version(at, unit):
        # Every third one stands behind a byte that doesn't count.
        grain = GRAINS[at]
        if unit % 3 == 0:
            files[grain] += b"\7"
        offset = len(files[grain])
        content = num(unit, 8) + num(2 if grain[0] == 0 else 1, 2) + integer(unit * 1000)
        if grain[0] == 0:
            content += text_value("é" if unit < 10 else "a note")
        files[grain] += content
        return grain_bytes(grain) + num(offset, 8) + num(len(content), 4)

    def call(grain, unit):
        if grain[0] == 1:
            return grain_bytes(grain) + num(0, 2) + num(2, 2) + text_value("") + integer(unit)
        argument = integer(unit) if unit % 2 == 0 else text_value("é")
        return grain_bytes(grain) + num(unit % 2, 2) + num(1, 2) + argument

    def record(unit):
        at = unit % 5
        child = unit % 4 == 3
        out = num(unit, 8) + (b"\1" + num(unit + 1, 8) + num(2, 4) + num(1, 2) if child else b"\0" + num(unit, 4))
        out += call(GRAINS[at], unit)
        answers = [b"\0", b"\1" + text_value("yes"), b"\2" + words("overflow")]
        out += num(unit % 4, 2) + b"".join(answers[:unit % 4])
        if unit % 7 == 6:
            return out + b"\2" + words("overflow") + num(0, 2)
        out += b"\1" + integer(unit)
        if unit % 3 == 0 and at < 3:
            return out + num(2, 2) + version(at, unit) + version(at + 2, unit)
        return out + num(1, 2) + version(at, unit)

    for unit in range(1, 21):
        body += record(unit)
        count += 1
        if unit % 3 == 0 or unit == 20:
            manager, body, count = add_block(manager, count, body), b"", 0
    return manager, files


def version(unit, balance):
    return num(unit, 8) + num(1, 2) + integer(balance)


# What a checkpoint names, and a deposit of 3 as unit 4 behind it.
ONE, TWO = ((0, 1), 0, 19), ((0, 2), 0, 19)
FOURTH = (num(4, 8) + b"\0" + num(1, 4) + grain_bytes((0, 1)) + num(0, 2) + num(1, 2) + integer(3) + num(0, 2)
          + b"\1" + integer(8) + num(1, 2) + grain_bytes((0, 1)) + num(19, 8) + num(19, 4))


def opens(rows):
    for name, content, told in rows:
        put(name, content)
        case(OPEN, told)


def checkpoints():
    title("A log that begins with a checkpoint: its count, its next unit, and the versions that it names, whichever unit's they are.")
    case("new")
    case("program " + TEXT)
    put("0/1", VERSION)
    put("manager", with_pieces(piece(0, 1, 2, [ONE])))
    told = f"{opened(1, 2, 59 + SHIFT)}; 0/1 {VERSION[8:].hex()} to 19"
    case(OPEN, told)
    case("syncs", "1")
    six = told.replace("0500", "0600")
    opens([("0/1", version(unit, 6), at) for unit, at in
           [(9, six), (2 ** 63 - 1, six), (0, "0/1 at 0"), (2 ** 63, "0/1 at 0")]])
    opens([("0/1", version(1, 6)[:-1], "0/1 at 0"), ("0/1", changed(version(1, 6), 8, 2), "0/1 at 8")])
    put("0/1", VERSION)
    opens([("manager", with_pieces(piece(0, 0, 1, [])), opened(0, 1, 41 + SHIFT)),
           ("manager", with_pieces(piece(0, 2 ** 63 - 1, 2 ** 63, [ONE])),
            told.replace("1 records", f"{2 ** 63 - 1} records").replace("unit 2", f"unit {2 ** 63}"))])
    title("Its pieces stand in blocks of their own, and records behind them.")
    put("0/1", VERSION + version(4, 8))
    put("0/2", version(3, 7))
    one, two = (f"0/1 {VERSION[8:].hex()} to 19", f"0/2 {version(3, 7)[8:].hex()} to 19")
    opens([("manager", with_pieces(FIRST, LAST), f"{opened(3, 4, 103 + 2 * SHIFT)}; {one}; {two}"),
           ("manager", with_pieces(piece(1, 3, 4, []), FIRST, LAST), f"{opened(3, 4, 129 + 3 * SHIFT)}; {one}; {two}"),
           ("manager", add_block(with_pieces(FIRST, LAST), 1, FOURTH),
            f"{opened(4, 5, 176 + 3 * SHIFT)}; 0/1 {version(4, 8)[8:].hex()} to 38; {two}"),
           ("0/1", changed(VERSION, 0, 0) + version(3, 8), "0/1 at 0"), ("0/1", VERSION + version(3, 8), "0/1 at 19")])
    put("0/1", VERSION + version(4, 8))
    if FORMAT == 2:
        case("stopped-open 4", "so after each")
    title("Where byte 13 says that a checkpoint follows it is damaged where no piece of one is, "
          "and else the first field that isn't right is named.")
    both, none = with_pieces(FIRST, LAST), piece(0, 3, 4, [])
    piece_at, second = 20, 59 + SHIFT
    for manager, place in [
            (with_pieces(), 15), (with_pieces(FIRST), second), (add_block(with_pieces(), 1, FOURTH), 67 if FORMAT == 2 else second),
            (with_pieces(piece(2, 3, 4, [])), piece_at), (with_pieces(piece(0, 2 ** 63, 4, [])), piece_at + 1),
            (with_pieces(piece(0, 3, 0, [])), piece_at + 9), (with_pieces(piece(0, 3, 2 ** 63 + 1, [])), piece_at + 9),
            (with_pieces(none[:-4] + num(65537, 4)), 37 + SHIFT), (with_pieces(none[:-4] + num(256, 4)), 41 + SHIFT),
            (with_pieces(piece(0, 3, 4, [((1, 1), 0, 19)])), 41 + SHIFT), (with_pieces(piece(0, 3, 4, [TWO, ONE])), second),
            (with_pieces(FIRST, piece(0, 3, 4, [ONE])), 85 + 2 * SHIFT), (with_pieces(FIRST, piece(0, 2, 4, [TWO])), 65 + SHIFT),
            (with_pieces(FIRST, piece(0, 3, 5, [TWO])), 73 + SHIFT), (with_pieces(none + b"\0"), 41 + SHIFT),
            (with_pieces(none)[:-1], 16), (changed(both, 13, 2), 13), (changed(both, 14, 1), 14),
            (changed(both, 13, 0), 28 if FORMAT == 2 else 20)]:
        put("manager", manager)
        case(OPEN, f"manager at {place}")


def long_texts(most):
    """The longest text of a format, and one byte more."""
    lay_deposit()
    longest = f"{opened(1, 2, 88 + SHIFT)}; 0/1 010001{num(most, 2).hex()}{'61' * most} to {13 + most}"
    for count, told in [(most, longest), (most + 1, "0/1 at 11")]:
        put("manager", MANAGER[:-5] + num(13 + count, 4) + MANAGER[-1:])
        put("0/1", num(1, 8) + num(1, 2) + b"\1" + num(count, 2) + b"a" * count)
        case(OPEN, told)


def long_versions():
    title("A version of more than 65,536 bytes is read by itself.")
    for size in (65536, 65537, 70000):
        manager, state = lay_wide(64, [size])
        case("fail read 0/1 1")
        case("open", "fault of 0/1")
        case("open", f"{opened(1, 2, len(manager) - 1)}; 0/1 {state} to {size}")
    title("A text has at most 4,096 bytes.")
    long_texts(4096)


def sessions():
    title("Sessions never fall from block to block, and are below 2 to the 63; the greatest is told.")
    lay_deposit()
    second = (num(2, 8) + DEPOSIT[8:-12] + num(19, 8) + num(19, 4))
    put("0/1", VERSION + version(2, 5))
    state = f"0/1 {version(2, 5)[8:].hex()} to 38"
    for first, later, told in [
            (0, 0, 0), (1, 1, 1), (1, 2, 2), (1, 2 ** 63 - 1, 2 ** 63 - 1), (2 ** 63 - 1, 2 ** 63 - 1, 2 ** 63 - 1),
            (2, 1, "manager at 101"), (1, 0, "manager at 101"), (1, 2 ** 63, "manager at 101"), (2 ** 63, 2 ** 63, "manager at 20"),
            (2 ** 64 - 1, 1, "manager at 20")]:
        put("manager", add_block(add_block(HEADER + b"\0", 1, DEPOSIT, first), 1, second, later))
        case(OPEN, told if isinstance(told, str) else f"{opened(2, 3, 177, told)}; {state}")
    title("Pieces of one checkpoint have one session, and none behind them has a lower one.")
    lay_deposit()
    put("0/1", VERSION + version(4, 8))
    put("0/2", version(3, 7))
    states = f"0/1 {version(4, 8)[8:].hex()} to 38; 0/2 {version(3, 7)[8:].hex()} to 19"
    for one, other, later, told in [
            (0, 0, 0, 0), (7, 7, 7, 7), (7, 7, 8, 8), (7, 7, 6, "manager at 124"), (7, 8, 8, "manager at 89"),
            (7, 6, 7, "manager at 89"), (2 ** 63, 2 ** 63, 2 ** 63, "manager at 37"), (2 ** 63 - 1, 2 ** 63 - 1, 2 ** 63 - 1, 2 ** 63 - 1)]:
        begun = with_pieces(piece(1, 3, 4, [ONE], one), piece(0, 3, 4, [TWO], other))
        put("manager", add_block(begun, 1, FOURTH, later))
        case(OPEN, told if isinstance(told, str) else f"{opened(4, 5, 200, told)}; {states}")


def both_formats():
    """Rows of both formats by both openings; each folder is called old or new before anything else of it is read."""
    title("A silo of format 1 isn't opened but by its own opening, and one of format 2 isn't by that. Nothing else is read of it.")
    lay_deposit()
    case("open", "old format")
    case("syncs", "1")
    put("program", b"")
    case("open", "old format")
    put("manager", changed(MANAGER, 13, 9))
    case("open", "old format")
    case("fail read manager 1")
    case("open", "fault of manager")
    case("open", "old format")
    lay_deposit()
    in_format(2)
    put("manager", MANAGER)
    case("open", OPENED)
    case("open-old", "new format")
    put("program", b"")
    case("open-old", "new format")
    case("open", "program at 0")
    put("manager", MANAGER[:15])
    case("open-old", "no silo")
    put("manager", changed(MANAGER, 8, ord("3")))
    case("open-old", "no silo")
    case("open", "no silo")
    title("The live slot is the one of the greater generation, whichever format it has, and its format is the folder's.")
    in_format(1)
    old = MANAGER
    in_format(2)
    new = MANAGER
    lay_deposit()
    put("program-1", num(len(TEXT), 4) + TEXT.encode())
    put("0/1-1", VERSION)
    for first, second, told, old_told in [
            (with_generation(old, 0), with_generation(new, 1), "slot 1: " + OPENED, "new format"),
            (with_generation(old, 1), with_generation(new, 1), "old format", OPENED_OLD),
            (with_generation(new, 1), with_generation(old, 1), OPENED, "new format"),
            (with_generation(new, 1), with_generation(old, 2), "old format", "slot 1: " + OPENED_OLD),
            (b"", old, "old format", "slot 1: " + OPENED_OLD), (changed(new, 0, 0), old, "old format", "slot 1: " + OPENED_OLD)]:
        put("manager", first)
        put("manager-1", second)
        case("open", told)
        case("open-old", old_told)
    title("A folder of either format is a silo, where no other is made.")
    for content in (old, new):
        for name in ("manager", "manager-1"):
            case("new")
            put(name, content)
            case("input " + TEXT)
            case("init", "the folder is a silo")
            case(f"show {name}", content.hex())
    title("In format 1 a text has at most 256 bytes and a type of a state at most 16 fields, whatever the program has.")
    in_format(1)
    manager, state = lay_wide(16, [4154])
    case(OPEN, f"{opened(1, 2, len(manager) - 1)}; 0/1 {state} to 4154")
    put("manager", manager[:-5] + num(4155, 4) + manager[-1:])
    case(OPEN, "0/1 at 0")
    lay_wide(17, [4500])
    put("manager", manager[:-5] + num(10 + 17 * 9, 4) + manager[-1:])
    put("0/1", num(1, 8) + num(17, 2) + integer(0) * 17)
    case(OPEN, "0/1 at 8")
    long_texts(256)


def two_slots():
    title("Of two silos the one of the greater generation is opened, and slot 0's where both are equal.")
    case("new")
    case("program " + TEXT)
    program = num(len(TEXT), 4) + TEXT.encode()
    other = with_pieces(piece(0, 2, 3, [ONE]))
    told = f"slot 1: {opened(2, 3, 59 + SHIFT)}; 0/1 {version(2, 9)[8:].hex()} to 19"
    put("program-1", program)
    put("0/1", VERSION)
    put("0/1-1", version(2, 9))
    put("manager", MANAGER)
    put("manager-1", with_generation(other, 1))
    case(OPEN, told)
    case("syncs", "2")
    last = with_generation(other, 2 ** 32 - 1)
    opens([("manager", with_generation(MANAGER, 1), OPENED), ("manager", with_generation(MANAGER, 256), OPENED),
           ("manager-1", last, told)])
    case("stopped-open 2", "so after each")
    opens([("program-1", b"", "program-1 at 0")])
    put("program-1", program)
    opens([("0/1-1", version(0, 9), "0/1-1 at 0")])
    put("0/1-1", version(2, 9))
    opens([("manager-1", changed(last, 0, 0), OPENED)])
    put("manager-1", other)
    opens([("manager", b"", told)])
    case("fail read manager-1 1")
    case(OPEN, "fault of manager-1")
    case(OPEN, told)


def makings_beside():
    title("A making looks at both manager files: a silo in either is one, and what slot 1's file has otherwise is synced and stays.")
    case("input " + TEXT)
    case("init", "the folder is a silo")
    no_silo = changed(HEADER, 0, 0) + b"\0"
    put("manager-1", no_silo)
    case("input " + TEXT)
    case("init", "made")
    case(OPEN, EMPTY)
    case("show manager-1", no_silo.hex())
    for files, syncs in [([("manager-1", b"\1")], 5), ([("manager", b"\2"), ("manager-1", b"\1")], 6)]:
        case("new")
        for name, content in files:
            put(name, content)
        case("input " + TEXT)
        case("init", "made")
        case("syncs", str(syncs))
        if len(files) == 1:
            case("show manager-1", "01")
    for call in ("length", "sync", "read"):
        case("new")
        put("manager-1", b"\1")
        case(f"fail {call} manager-1 1")
        case("input " + TEXT)
        case("init", "fault of manager-1")
        case("show manager", "none")


class Damage(Exception):
    """The place of the first fault."""


class Walk:
    """Plain walks over bytes, for the types of TYPES."""

    def __init__(self, content):
        self.content, self.at = content, 0

    def number(self, width):
        field = self.content[self.at:self.at + width]
        if len(field) < width:
            raise Damage(self.at)
        self.at += width
        return int.from_bytes(field, "little")

    def where(self, width, holds):
        place, number = self.at, self.number(width)
        if not holds(number):
            raise Damage(place)
        return number

    def end(self):
        if self.at < len(self.content):
            raise Damage(self.at)

    def text(self):
        length = self.where(2, lambda n: n <= {1: 256, 2: 4096}[FORMAT])
        content = self.content[self.at:self.at + length]
        try:
            content.decode()
        except UnicodeDecodeError:
            # A text that is cut isn't whole, and is named at its first byte too.
            raise Damage(self.at) from None
        if len(content) < length:
            raise Damage(self.at)
        self.at += length

    def value(self):
        if self.where(1, lambda tag: tag < 2) == 0:
            self.number(8)
        else:
            self.text()

    def values(self, count):
        self.where(2, lambda n: n == count)
        for _ in range(count):
            self.value()

    def answer(self, lowest):
        tag = self.where(1, lambda n: lowest <= n < 3)
        if tag == 1:
            self.value()
        if tag == 2:
            self.text()

    def origin(self):
        if self.where(1, lambda tag: tag < 2) == 0:
            self.number(4)
            return
        self.where(8, lambda unit: unit < 2 ** 63)
        self.number(4)
        self.number(2)

    def call(self):
        kind = self.where(2, lambda n: n < 2)
        self.number(4)
        parameters = {(0, 0): 1, (0, 1): 1, (1, 0): 2}
        method = self.where(2, lambda n: (kind, n) in parameters)
        self.values(parameters[kind, method])

    def writes(self, unit, named):
        last = None
        for _ in range(self.where(2, lambda n: n <= 64)):
            place = self.at
            grain = (self.where(2, lambda n: n < 2), self.number(4))
            if last is not None and grain <= last:
                raise Damage(place)
            last = grain
            named.append((unit, grain, self.number(8), self.number(4)))

    def record(self, named):
        unit = self.where(8, lambda n: 0 < n < 2 ** 63)
        self.origin()
        self.call()
        for _ in range(self.where(2, lambda n: n <= 64)):
            self.answer(0)
        self.answer(1)
        self.writes(unit, named)
        return unit

    def session(self, last):
        """The session of a block, which doesn't fall. In format 1 all have the session 1."""
        return self.where(8, lambda n: last <= n < 2 ** 63) if FORMAT == 2 else 1

    def piece(self, first, named):
        """Whether another piece follows, and what a checkpoint's first piece said."""
        more = self.where(1, lambda n: n < 2)
        count = self.where(8, lambda n: n < 2 ** 63 if first is None else n == first[0])
        following = self.where(8, lambda n: 0 < n <= 2 ** 63 if first is None else n == first[1])
        session = 1
        if FORMAT == 2:
            session = self.where(8, lambda n: n < 2 ** 63 if first is None else n == first[2])
        for _ in range(self.where(4, lambda n: n <= 65536)):
            place = self.at
            grain = (self.where(2, lambda n: n < 2), self.number(4))
            if named and grain <= named[-1][1]:
                raise Damage(place)
            named.append((None, grain, self.number(8), self.number(4)))
        self.end()
        return more == 1, (count, following, session)


def block_behind(manager, gate):
    """The body behind a gate and the next gate, none where it is closed."""
    if gate >= len(manager) or manager[gate] != 1:
        return None
    start = gate + 5
    end = start + int.from_bytes(manager[gate + 1:start], "little")
    if start > len(manager) or end >= len(manager):
        raise Damage(gate + 1)
    return manager[start:end], end


def read_saved(manager):
    """What a log begins with, by its pieces: the count, the next unit, the session, the gate behind them, and the versions that are
    named."""
    gate, first, named, more = 15, None, [], True
    while more:
        block = block_behind(manager, gate)
        if block is None:
            raise Damage(gate)
        try:
            more, first = Walk(block[0]).piece(first, named)
        except Damage as damage:
            raise Damage(gate + 5 + damage.args[0]) from None
        gate = block[1]
    return *first, gate, named


def read_log(manager):
    """The records' count, the next unit, the greatest session, the gate at which the log ends, and the versions that are named."""
    for at, most in HEADER_BYTES:
        if manager[at] > most:
            raise Damage(at)
    count, following, session, gate, named = read_saved(manager) if manager[13] == 1 else (0, 1, 0, 15, [])
    while (block := block_behind(manager, gate)) is not None:
        walk = Walk(block[0])
        try:
            session = walk.session(session)
            for _ in range(walk.where(4, lambda n: n <= 64)):
                following = max(following, walk.record(named) + 1)
                count += 1
            walk.end()
        except Damage as damage:
            raise Damage(gate + 5 + damage.args[0]) from None
        gate = block[1]
    return count, following, session, gate, named


def version_damage(content, unit, grain, offset, length):
    """Where a grain's file is damaged that should have the version, none where it isn't."""
    walk = Walk(content[offset:offset + length])
    if offset + length > len(content):
        return offset
    try:
        walk.where(8, lambda n: 0 < n < 2 ** 63 if unit is None else n == unit)
        walk.values(2 if grain[0] == 0 else 1)
        walk.end()
    except Damage as damage:
        return offset + damage.args[0]
    return None


def answer(manager, files):
    """What opening answers of the folder."""
    if len(manager) < 16 or manager[:9] not in (header_of(1)[:9], header_of(2)[:9]):
        return "no silo"
    if manager[:9] != HEADER[:9]:
        return "old format" if FORMAT == 2 else "new format"
    try:
        count, following, session, gate, named = read_log(manager)
    except Damage as damage:
        return f"manager at {damage.args[0]}"
    damaged = {}
    for unit, grain, offset, length in named:
        place = version_damage(files.get(grain, b""), unit, grain, offset, length)
        if place is not None:
            damaged.setdefault(grain, place)
    for (kind, key), place in sorted(damaged.items()):
        return f"{kind}/{key} at {place}"
    told = opened(count, following, gate, session)
    for grain in sorted({one[1] for one in named}):
        ends = [offset + length for _, one, offset, length in named if one == grain]
        _, _, offset, length = [one for one in named if one[1] == grain][-1]
        told += f"; {grain[0]}/{grain[1]} {files[grain][offset + 8:offset + length].hex()} to {max(ends)}"
    return told


def other_byte(at, old):
    return [0, 255, old ^ 128, (old - 1) % 256][at % 4]


def changes():
    title("A folder of 20 records over 5 grains.")
    manager, files = many_records()
    case("new")
    case("program " + TYPES)
    put("manager", manager)
    names = {"manager": manager}
    for grain in GRAINS:
        names[f"{grain[0]}/{grain[1]}"] = files[grain]
        put(f"{grain[0]}/{grain[1]}", files[grain])
    case(OPEN, answer(manager, files))
    title("Each file of it cut at each length, and with each byte changed to the next one and to another.")

    def with_file(name, content):
        if name == "manager":
            return answer(content, files)
        kind, key = name.split("/")
        return answer(manager, {**files, (int(kind), int(key)): content})

    for name, content in names.items():
        runs(f"cuts {name}", [with_file(name, content[:at]) for at in range(len(content))])
        for how, byte in [("next", lambda at, old: (old + 1) % 256), ("other", other_byte)]:
            runs(f"bytes {name} {how}",
                 [with_file(name, changed(content, at, byte(at, content[at]))) for at in range(len(content))])


# The bytes of the header behind its generation and the greatest that each may be, and the calls of an opening on each file that are to
# fail.
HEADER_BYTES = [(13, 1), (14, 0)]
ZERO_ROWS = [(13, 255, "manager at 13"), (14, 1, "manager at 14")]
OPENING_CALLS = [("length", "manager", 2), ("sync", "manager", 1), ("read", "manager", 7), ("length", "program", 1),
                 ("read", "program", 2), ("read", "0/1", 1)]

in_format(2)
openings()
transfer()
makings()
pieces()
long_versions()
changes()
checkpoints()
sessions()
two_slots()
makings_beside()
in_format(1)
title("All this in format 1, which has no sessions, by the opening that reads it.")
openings()
transfer()
pieces()
checkpoints()
both_formats()
sys.exit(write_or_compare("opening_tests", ["\n".join(lines) + "\n" for lines in (CASES, TOLD)], sys.argv[1:]))
