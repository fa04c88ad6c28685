#!/usr/bin/env python3
"""Makes the scripts that the program of `settle_tests` carries, and what it has to say to them, which stands here by hand:
  checks/settle_scripts.py          writes crates/settle_tests/stdin and stdout anew
  checks/settle_scripts.py --check  says whether these files are what would be written
A row is a line of a script and what is said to it; `crates/settle_tests/src/verbs.rt` tells the lines. A file is an account's
number, or -1, which is the manager's. Files are written before the log: a transfer makes two calls for each of two accounts,
two for the block, two for its gate, and one for its reply line."""
import sys

from harness import write_or_compare

MANAGER = -1
RESTS, WRITE_FAULT, IN_DOUBT = "rests", "stops by a write fault", "stops in doubt"
READ_FAULT, DAMAGED = "stops by a read fault", "stops by a damaged file"
VERSION = 19  # The bytes of a version whose state is one number.
SESSION = 7  # That of the settler.


# Reply lines.

def reply(number, value):
    return f'{{"n":{number},"reply":{value},"unit":{number}}}\n'


def vote(number, account):
    return f'{{"aborted":"vote","grain":"account/{account}","n":{number},"unit":{number}}}\n'


def disk(number):
    return f'{{"aborted":"disk","n":{number},"unit":{number}}}\n'


def dependency(number, on):
    return f'{{"aborted":"dependency","n":{number},"on":{on},"unit":{number}}}\n'


def in_doubt(number):
    return f'{{"in_doubt":true,"n":{number},"unit":{number}}}\n'


# Rows.

def opened(quiet=0):
    return [(f"open {quiet}", "opened")]


def planned(*lines):
    return [(line, "planned") for line in lines]


def carried(*lines):
    return [(line, "carried") for line in lines]


def settles(end):
    return [("settle", end)]


def output(*lines):
    text = "".join(lines)
    return [("output", f"output {len(text)}\n{text}")]


def calls(count, entries):
    return [("calls", f"calls {count}, entries {entries}")]


def blocks(name, *words):
    return [(name, " ".join(["blocks", *map(str, words)]))]


def doubt(flag):
    return [("doubt", "yes" if flag else "no")]


def all_images(name, after, empty, word):
    """Each of sixteen images after so many calls, or within the next one, has no block, if that may be, or one of this word."""
    return [(f"{name} {after} {int(empty)} {word}", "images 16")]


def steps(*counts):
    """Steps that make so many calls, and then there is nothing to do."""
    return [("step", f"stepped, calls {count}") for count in counts] + [("step", "rests, calls 0")]


# The host calls of batches.

def sixty_four_transfers():
    """Over 64 accounts: one write and one sync a file, two of the manager's, and an emit for each line."""
    wrote = [line % 63 for line in range(64)] + [63] * 64
    rows = opened() + carried(*[f"transfer {line + 1} {line % 63} 63" for line in range(64)]) + settles(RESTS)
    for account in range(64):
        rows += [(f"file {account}", "writes 1, syncs 1"), (f"bytes {account}", f"bytes {VERSION * wrote.count(account)}")]
    rows += [(f"file {MANAGER}", "writes 2, syncs 2"), ("noted", "writes and syncs 132")]
    return rows + calls(196, 64) + blocks("counts", 64)


def in_slot_one():
    """All that it writes and syncs is of that slot's files."""
    rows = [("open 0 1", "opened")] + carried("transfer 1 1 2") + settles(RESTS)
    rows += [(f"file {file}", "writes 1, syncs 1") for file in (1, 2)]
    rows += [(f"file {MANAGER}", "writes 2, syncs 2"), ("noted", "writes and syncs 8")]
    return rows + blocks("units", 1) + output(reply(1, -1))


def quiet_settler():
    rows = opened(1) + carried("transfer 1 1 2") + settles(RESTS)
    return rows + output() + calls(8, 1) + blocks("units", 1)


def something_to_do():
    rows = opened() + [("applies", "no")] + carried("transfer 1 1 2") + [("applies", "yes")]
    return rows + settles(RESTS) + [("applies", "no")]


def with_fault(fault, *counts):
    return opened() + planned(fault) + carried("transfer 1 1 2") + steps(*counts)


# Calls that fail.

def behind_a_logged_one():
    """The input is never asked, so nothing fails, and the next batch goes behind this one."""
    rows = opened() + planned("fail_pull 1") + carried("transfer 1 1 2") + settles(RESTS)
    rows += output(reply(1, -1)) + blocks("units", 1) + carried("transfer 2 1 2") + settles(RESTS) + blocks("units", 1, 2)
    # Both blocks have the session of the settler.
    rows += blocks("sessions", SESSION, SESSION)
    rows += [("bytes 1", f"bytes {2 * VERSION}"), ("bytes 2", f"bytes {2 * VERSION}")] + doubt(False)
    return rows + output(reply(1, -1), reply(2, -2))


def in_place_of_a_failed_one(fault, line):
    rows = opened() + planned(fault) + carried("transfer 1 1 2") + settles(RESTS) + output(line) + blocks("units")
    rows += carried("transfer 2 1 2") + settles(RESTS) + blocks("units", 2)
    rows += [("bytes 1", f"bytes {VERSION}"), ("bytes 2", f"bytes {VERSION}")] + doubt(False)
    return rows + output(line, reply(2, -1))


def cut_emit(part, text):
    """An emit puts out a part and fails: the batch was sealed before, no event is put, and the entry is still to write."""
    rows = opened() + planned(f"cut_emit {part}") + carried("transfer 1 1 2") + settles(WRITE_FAULT)
    rows += output(text) + blocks("units", 1) + calls(9, 0)
    return rows + settles(RESTS) + output(text, reply(1, -1)) + calls(10, 1)


def failed_emit():
    rows = opened() + planned("fail_emit 2") + carried("transfer 1 1 2", "transfer 2 1 2") + settles(WRITE_FAULT)
    return rows + output(reply(1, -1)) + calls(10, 1) + blocks("counts", 2)


# Doubts, stops and crashes.

def doubted_gate(fault, count, units, more):
    """The gate's write or its sync fails: the batch is in doubt, and nothing comes behind it."""
    rows = opened() + planned(fault) + carried("transfer 1 1 2") + settles(IN_DOUBT) + doubt(True)
    rows += output(in_doubt(1)) + blocks("units", *units) + all_images("image_units", count, True, 1) + more
    return rows + calls(count, 1) + settles(RESTS) + calls(count, 1)


def crashed(after):
    """Before the gate is written each image's log is empty, and behind its sync it has the batch."""
    return all_images("image_units", after, after < 8, 1 if after >= 6 else 0)


def stopped(after):
    """All calls fail after so many. A gate that couldn't be told leaves a doubt, and no line is put out."""
    rows = opened() + planned(f"stop_after {after}") + carried("transfer 1 1 2") + settles(WRITE_FAULT)
    return rows + output() + calls(after, 0) + doubt(after in (6, 7)) + crashed(after)


def crashes():
    rows = opened() + carried("transfer 1 1 2") + settles(RESTS) + calls(9, 1)
    return rows + [row for after in range(10) for row in crashed(after)]


# A core that keeps one account in memory which isn't in use. A version is read by one call.

READ = 1


def opened_small():
    return [("open 0 0 1", "opened")]


def wants(line, account, number):
    """The line's unit wants the account, to which it will add the number."""
    return carried(f"want {line} {account} {number}")


def loads(end, count):
    return [("load", f"{end}, calls {count}")]


def goes_on(unit):
    """The unit adds to what this unit wrote, nobody's where that is 0, and all is settled."""
    return [("go_on", f"carried, from unit {unit}")] + settles(RESTS)


def used(line, account, number, count, unit):
    """The account is wanted, brought into memory by so many calls, and added to."""
    return wants(line, account, number) + loads("stepped", count) + goes_on(unit)


def not_in_memory():
    """An account that isn't in memory is granted to nobody, and one that nobody wants isn't brought into it."""
    return opened_small() + [("add 1 1 5", "not carried")] + loads(RESTS, 0)


def without_a_version():
    """It has its type's fields, which are nobody's, by no call of the host; and what is in memory isn't brought into it again."""
    rows = opened_small() + wants(1, 1, 5) + loads("stepped", 0) + loads(RESTS, 0) + goes_on(0)
    return rows + wants(2, 1, 4) + loads(RESTS, 0) + goes_on(1) + output(reply(1, 5), reply(2, 9))


def two_used():
    """Account 1 leaves memory for account 2."""
    return opened_small() + used(1, 1, 5, 0, 0) + used(2, 2, 7, 0, 0)


def with_a_version():
    return two_used() + used(3, 1, 4, READ, 1) + output(reply(1, 5), reply(2, 7), reply(3, 9))


def of_an_earlier_run():
    """The file names unit 1, which isn't this run's."""
    rows = opened_small() + used(1, 1, 5, 0, 0) + [("reopen 1 5", "opened")]
    return rows + used(1, 1, 0, READ, 0) + output(reply(1, 5))


def by_a_step():
    """The settler's step does it too, before a batch is taken."""
    rows = two_used() + wants(3, 1, 4) + [("applies", "yes")] + steps(READ) + goes_on(1)
    return rows + output(reply(1, 5), reply(2, 7), reply(3, 9))


def of_a_batch_that_failed():
    """Its version was written, and its place isn't the last one's: what is read is the version before."""
    rows = opened_small() + used(1, 1, 5, 0, 0) + planned(f"fail_sync {MANAGER} 1") + carried("add 2 1 4") + settles(RESTS)
    rows += [("bytes 1", f"bytes {2 * VERSION}")] + used(3, 2, 7, 0, 0) + used(4, 1, 1, READ, 1)
    return rows + output(reply(1, 5), disk(2), reply(3, 7), reply(4, 6))


def failed_read(fault, count):
    """No event is put, so the settler can do it again."""
    rows = two_used() + wants(3, 1, 4) + planned(fault) + loads(READ_FAULT, count) + loads("stepped", READ)
    return rows + goes_on(1) + output(reply(1, 5), reply(2, 7), reply(3, 9))


def damaged_file():
    """The recorder doesn't tell what its files hold, so that they may be damaged."""
    rows = two_used() + wants(3, 1, 4) + [("damage 1", "damaged")] + loads(DAMAGED, 1)
    return rows + [("step", f"{DAMAGED}, calls 1"), ("go_on", "not carried")]


# Worked inputs: a first line deposits 5 on account 1.

def two_lines(fault, second, end):
    return opened() + planned(fault) + carried("add 1 1 5", second) + settles(end)


def one_batch():
    rows = two_lines(f"fail_sync {MANAGER} 3", "add 2 1 0", RESTS) + output(reply(1, 5), reply(2, 5))
    return rows + blocks("counts", 2) + [("noted", "writes and syncs 6")]


def failed_vote_and_dependent():
    rows = two_lines("fail_sync 1 1", "add 2 1 0", RESTS)
    return rows + output(vote(1, 1), dependency(2, 1)) + blocks("counts")


def failed_vote_and_another():
    rows = two_lines("fail_sync 1 1", "add 2 2 4", RESTS) + output(vote(1, 1), reply(2, 4))
    return rows + blocks("counts", 1) + blocks("units", 2)


def failed_block():
    rows = opened() + planned(f"fail_sync {MANAGER} 1") + carried("add 1 1 5") + settles(RESTS)
    rows += carried("add 2 1 5") + settles(RESTS) + output(disk(1), reply(2, 5))
    return rows + blocks("units", 2)


def failed_gate():
    """One file and the log, by six calls, and two lines."""
    rows = two_lines(f"fail_sync {MANAGER} 2", "add 2 1 0", IN_DOUBT) + output(in_doubt(1), in_doubt(2))
    return rows + calls(8, 2) + all_images("image_counts", 8, True, 2)


def scripts():
    """Titles, each with its rows."""
    yield "sixty four transfers make one write and one sync a file", sixty_four_transfers()
    yield "a settler in slot 1 writes the files of that slot alone", in_slot_one()
    yield "a quiet settler puts out no line", quiet_settler()
    yield "it applies where there is something to do", something_to_do()
    # The batch is taken, two votes, the decision, the seal, two grains learn, and the entry is written; no file is read.
    yield "each step makes the host calls of its event", with_fault(f"fail_read {MANAGER} 1", 0, 2, 2, 0, 4, 0, 0, 1)
    yield "a write that fails is not synced, and nothing is sealed", with_fault("fail_write 1 1", 0, 1, 2, 0, 0, 0, 1)
    yield "a block that fails opens no gate", with_fault(f"fail_sync {MANAGER} 1", 0, 2, 2, 0, 2, 0, 0, 1)
    yield "a batch goes behind one that is logged", behind_a_logged_one()
    for fault, line in (
        ("fail_write 1 1", vote(1, 1)),
        ("fail_sync 1 1", vote(1, 1)),
        ("fail_write 2 1", vote(1, 2)),
        ("fail_sync 2 1", vote(1, 2)),
        (f"fail_write {MANAGER} 1", disk(1)),
        (f"fail_sync {MANAGER} 1", disk(1)),
    ):
        yield f"a batch takes the place of one that failed: {fault}", in_place_of_a_failed_one(fault, line)
    for part, text in ((0, ""), (5, '{"n":'), (99, reply(1, -1))):
        yield f"an emit fails with {part} bytes of its line, or all", cut_emit(part, text)
    yield "a failed emit stops the settler", failed_emit()
    yield "a gate whose write fails leaves a doubt", doubted_gate(f"fail_write {MANAGER} 2", 8, [], [])
    spread = [("spread 9", "some")]
    yield "a gate whose sync fails leaves a doubt", doubted_gate(f"fail_sync {MANAGER} 2", 9, [1], spread)
    for after in range(9):
        yield f"a stop after {after} calls leaves the whole batch or none", stopped(after)
    yield "a crash within each call leaves the whole batch or none", crashes()
    yield "an account that isn't in memory is not granted", not_in_memory()
    yield "an account without a version begins with its type's fields", without_a_version()
    yield "an account that left memory is read at its place", with_a_version()
    yield "a version of an earlier run is nobody's", of_an_earlier_run()
    yield "a step brings in what is wanted", by_a_step()
    yield "a version of a batch that failed is not read", of_a_batch_that_failed()
    yield "a read that fails stops the settler", failed_read("fail_read 1 1", READ)
    yield "a damaged file stops the settler", damaged_file()
    yield "a deposit and a read of it are one batch", one_batch()
    yield "a failed vote aborts what depends on it", failed_vote_and_dependent()
    yield "a failed vote leaves the others of its batch", failed_vote_and_another()
    yield "a failed block is no part of what comes behind", failed_block()
    yield "a failed gate leaves the whole batch in doubt", failed_gate()


def main(words):
    lines, said = [], []
    for title, rows in scripts():
        for line, text in [(f"title {title}", title), *rows]:
            lines.append(line + "\n")
            said.append(text + "\n")
    return write_or_compare("settle_tests", ("".join(lines), "".join(said)), words)


if __name__ == "__main__":
    sys.exit(main(sys.argv[1:]))
