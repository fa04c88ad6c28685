"""A silo from Python: requests and their replies, what may be sent again sent again, reports, and the number of records.

    from silo import Silo, Fault

    with Silo("bank") as bank:
        bank.call("account/1.deposit", 100)                  # 100, or one of the exceptions below
        results = bank.batch([("teller/0.transfer", [1, 2, 30]), ("account/9.withdraw", [5])])

A batch is one run of the program `silo` where its lines fit into one input, and its results are values and exceptions in the order of the
calls. The calls of a batch are carried side by side, `width` of them at a time, and in no order that can be told beforehand: calls that
need an order are batches of their own, or carried by a Silo of width 1.

What may be sent again is sent again, `tries` times in all, the last time with one call in flight: a call that was aborted by a lock or by
what it had read, and one that ended with the fault `aborted`, as one does of which a transaction of its own was aborted; but only where
the log has no transaction that the call began, since what these committed stays. A program's own `fail "aborted"` looks the same, and
sending it again does no harm, since a transaction that ended with a fault wrote nothing.
What is aborted by a file that failed (`vote`, `disk`) isn't sent again: look at the disk first.

Needs Python 3.8 and nothing else.
"""
import collections
import contextlib
import fcntl
import json
import os
import shutil
import struct
import subprocess

__all__ = "Silo Sent SiloError Fault Bad Aborted InDoubt Unanswered Ended records batches find_program LINE_LIMIT INPUT_LIMIT".split()

LINE_LIMIT = 65_536  # the most bytes of a request line
INPUT_LIMIT = 16_777_216  # the most bytes that one run is given here: what a run takes of memory grows with its lines

UPGRADE = 2**32 - 1  # what stands in an upgrade where a batch has its count

DISK, DAMAGED = 6, 9
# With these numbers and no reply nothing was carried. With DAMAGED a file may have been damaged while the run went.
NOT_CARRIED = (2, 4, 7, 8, 10, 11, 14)
AFTER_DISK = 'before anything else is run on this folder, see "After a failed sync" in docs/OPERATIONS.md\n'

MEANS = {
    "json": "the line is no JSON",
    "shape": "a request has args and call, and nothing else",
    "grain": "no such type, or the key isn't 0 to 4294967295",
    "method": "the type has no such method",
    "args": "the method takes another number of arguments, or one is neither a whole number of 64 bits nor a text of at most 4,096 bytes",
}

# What became of the calls of one run: the program's number and its text; a reply for each call in the order of the calls, None where
# there is none; how many records the log had before, None where the folder is no silo. Where the log was looked through, `others` are
# the records behind these that no line has: transactions that the calls' own units began. Else it is None.
Sent = collections.namedtuple("Sent", "number text replies others before")


class SiloError(Exception):
    """What a call gets in place of a value. `call` is the call; `again` says whether it may be sent again without harm."""

    call, again = None, False


class Fault(SiloError):
    """The program said no, by `text`: the transaction wrote nothing. `unit` is its number, `began` as of Aborted."""

    def __init__(self, reply, began=None, again=False):
        super().__init__(reply["fault"])
        self.reply, self.text, self.unit, self.began, self.again = reply, reply["fault"], reply["unit"], began, again


class Bad(SiloError):
    """The call is no request of this silo: `word` is the test that it fails."""

    def __init__(self, word):
        super().__init__(f"{word}: {MEANS.get(word, word)}")
        self.word = word


class Aborted(SiloError):
    """The transaction was aborted and wrote nothing, by `cause`: lock, dependency, vote or disk.

    `began` are the records of transactions that it may have begun, as far as they are in the log: these stay. It is None where nobody
    looked: the log is looked through where something may be sent again, or the run ended early."""

    def __init__(self, reply, began=None, again=False):
        super().__init__(", ".join(f"{key} {reply[key]}" for key in ("aborted", "by", "on", "grain") if key in reply))
        self.reply, self.cause, self.unit = reply, reply["aborted"], reply["unit"]
        self.began, self.again = began, again


class InDoubt(SiloError):
    """The sync that decides failed: the next opening finds the whole batch in the log, or nothing of it.

    Before anything else is run on the folder, see "After a failed sync" in docs/OPERATIONS.md. Unit numbers are given anew, so look in the
    history for the records behind the first `before` ones, for the line `n` of the run."""

    def __init__(self, reply, before):
        super().__init__(f"unit {reply['unit']} is in the log or isn't")
        self.reply, self.unit, self.n, self.before = reply, reply["unit"], reply["n"], before


class Unanswered(SiloError):
    """The run ended with `number` before the call was answered, and the log has no record of it.

    `sent` is False where it wasn't sent at all; `began` is as of Aborted, and None after a disk fault and where a file is damaged."""

    def __init__(self, number, text, sent=True, began=None, again=False):
        super().__init__(f"silo ended with {number}: {text.strip()}")
        self.number, self.text, self.sent, self.began, self.again = number, text, sent, began, again


class Ended(SiloError):
    """A command other than `run` ended with this number: nothing was given."""

    def __init__(self, number, text):
        super().__init__(f"silo ended with {number}: {text.strip()}")
        self.number, self.text = number, text


def find_program():
    """The program: that which SILO names, that of the repository or the installation that this file stands in, or that on PATH. The
    repository's is the one that is built already, else the launcher, which builds it first."""
    above = os.path.dirname(os.path.dirname(os.path.dirname(os.path.realpath(__file__))))
    near = [os.path.join(above, "crates", "silo", "out", "silo"), os.path.join(above, "silo"), os.path.join(os.path.dirname(above), "bin", "silo")]
    found = [path for path in (os.environ.get("SILO"), *near, shutil.which("silo")) if path and os.path.isfile(path) and os.access(path, os.X_OK)]
    return found[0] if found else "silo"


def live_log(folder):
    """The manager file of the live slot, opened, and its first 16 bytes, or None where the folder is no silo or can't be read."""
    slots = []
    for slot in (0, 1):
        try:
            # What is no file is told at once: a pipe would be waited for.
            file = os.open(os.path.join(folder, f"manager-{slot}.otx"), os.O_RDONLY | os.O_NONBLOCK)
        except OSError:
            continue
        try:
            head = os.pread(file, 16, 0)
        except OSError:
            head = b""
        if len(head) == 16 and head[:9] in (b"\1OTXLOG01", b"\1OTXLOG02"):
            slots.append((struct.unpack("<I", head[9:13])[0], -slot, file, head))
        else:
            os.close(file)
    slots.sort()
    for _, _, file, _ in slots[:-1]:
        os.close(file)
    return slots[-1][2:] if slots else None


def batches(folder):
    """The number of records of each batch in a folder's log behind its checkpoint, 1 for an upgrade, or None where it is no silo or can't be
    read. Of each block it reads at most 17 bytes: the gate before it, its length, its session where the format has sessions, and its count."""
    live = live_log(folder)
    if live is None:
        return None
    file, head = live
    form = "<xI8xI" if head[8:9] == b"2" else "<xII"
    size = struct.calcsize(form)
    try:
        found, gate, is_checkpoint = [], 15, head[13] == 1
        while True:
            head = os.pread(file, size, gate)
            if len(head) < size or head[0] != 1:
                return found
            length, count = struct.unpack(form, head)
            if is_checkpoint:
                is_checkpoint = head[5] == 1
            else:
                found.append(1 if count == UPGRADE else count)
            gate += 5 + length
    except OSError:
        return None
    finally:
        os.close(file)


def records(folder):
    """The number of records and upgrades in a folder's log behind its checkpoint, which are those that `history` prints, or None where it is
    no silo. The records themselves aren't read."""
    found = batches(folder)
    return None if found is None else sum(found)


def line_of(call, args):
    """The request line of a call, in bytes."""
    line = json.dumps({"args": list(args), "call": call}, ensure_ascii=False, separators=(",", ":")).encode() + b"\n"
    if len(line) - 1 > LINE_LIMIT:
        raise ValueError(f"a request line has {len(line) - 1} bytes, and may have {LINE_LIMIT}")
    return line


def parts(lines, limit=INPUT_LIMIT):
    """The places of these lines, in parts that one run is given each."""
    part, size = [], 0
    for place, line in enumerate(lines):
        if part and size + len(line) > limit:
            yield part
            part, size = [], 0
        part.append(place)
        size += len(line)
    if part:
        yield part


def begun(replies, others):
    """The records of transactions that others began, by the number of the line whose unit began them; by None where that can't be told,
    since a unit between them isn't in the log."""
    line_of_unit = {reply["unit"]: reply["n"] for reply in replies if reply and "unit" in reply}
    record_of_unit = {record["unit"]: record for record in others}
    found = collections.defaultdict(list)
    for record in others:
        above = record["parent"]
        while above not in line_of_unit and above in record_of_unit and record_of_unit[above]["parent"] < above:
            above = record_of_unit[above]["parent"]
        found[line_of_unit.get(above)].append(record)
    return found


class Silo:
    """A silo's folder, over which requests are run and reports are made.

    Clients of one folder take turns by a lock on FOLDER.lock, which a Silo has while its `with` block goes, or else for each call. `limit`
    is the most bytes that one run is given: longer inputs are split, since a run keeps a little of each line.

    Once a batch is in doubt, a Silo asks its folder nothing more, and raises `Ended` with 6: what has to be done first is told in
    docs/OPERATIONS.md, and then another Silo goes on."""

    def __init__(self, folder, program=None, width=64, tries=5, limit=INPUT_LIMIT):
        self.folder, self.program = os.fspath(folder), program or find_program()
        self.width, self.tries, self.limit = width, tries, limit
        self._held, self._depth, self._is_in_doubt = None, 0, False

    def __enter__(self):
        if self._depth == 0:
            self._held = open(os.path.abspath(self.folder) + ".lock", "w")
            fcntl.flock(self._held, fcntl.LOCK_EX)
        self._depth += 1
        return self

    def __exit__(self, *_):
        self._depth -= 1
        if self._depth == 0:
            self._held.close()

    def ask(self, *words, given=b""):
        """Runs the program over the folder. Gives its number, its text on standard error, and its whole output lines, read as JSON."""
        if self._is_in_doubt:
            raise Ended(DISK, "a batch is in doubt: " + AFTER_DISK)
        done = subprocess.run([self.program, self.folder, *words], input=given, capture_output=True)
        whole = done.stdout.split(b"\n")[:-1]  # a last line without its line feed was cut, and is none
        return done.returncode, done.stderr.decode(errors="replace"), [json.loads(line) for line in whole]

    def init(self, program):
        """Makes a silo of a program's text, in a new folder."""
        os.makedirs(self.folder, exist_ok=True)
        with self:
            self._report("init", given=program.encode() if isinstance(program, str) else program)

    def upgrade(self, program):
        """Brings a program's text into force in the silo."""
        with self:
            self._report("upgrade", given=program.encode() if isinstance(program, str) else program)

    def records(self):
        """The number of records and upgrades, by `records`."""
        return records(self.folder)

    def show(self):
        """The fields of each grain that was written, by its name, as {"account/1": {"balance": 70}}."""
        return {line["grain"]: line["fields"] for line in self._report("show")[:-1]}

    def history(self, behind=0):
        """The records and upgrades behind the first so many, in the order of the log, as docs/FORMATS.md tells them."""
        return self._report("history")[behind:]

    def audit(self):
        """The number of records and upgrades, and the unit of the first record that a one-thread store doesn't give, or None."""
        [line] = self._report("audit")
        return line["count"], line["first_bad"]

    def call(self, call, *args):
        """Runs one call, as call("account/1.deposit", 5), and gives its value, or raises what it gets in place of one."""
        [result] = self.batch([(call, args)])
        if isinstance(result, SiloError):
            raise result
        return result

    def batch(self, calls):
        """Runs calls such as ("account/1.deposit", [5]), and gives for each its value, or the SiloError that it gets in place of one."""
        calls = [(call, list(args)) for call, args in calls]
        lines = [line_of(*call) for call in calls]
        results, left = [None] * len(calls), list(range(len(calls)))
        with self:
            for tried in range(self.tries):
                width = 1 if 0 < tried == self.tries - 1 else self.width
                ended = self._try(lines, left, width, results)
                left = [place for place in left if isinstance(results[place], (Aborted, Fault)) and results[place].again]
                if ended or not left:
                    break
        for call, result in zip(calls, results):
            if isinstance(result, SiloError):
                result.call = call
        return results

    def send(self, calls):
        """Carries calls in one run, sends nothing again, and gives what became of them as `Sent`.

        Where the run ended early, what has no reply is looked up in the log: its record tells how it ended. A call that has neither
        wrote nothing itself. It may be sent again, unless `others` has what it began: the record of a transaction that a plain run or
        an aborted transaction began stays, and names its parent, but not its line.

        After a disk fault nothing is looked up, and replies in doubt stay as they are: the folder isn't to be opened before its manager
        file is read from the disk again. The text says so; `history(before)` gives the records then. Where a file is damaged nothing is looked up
        either: such a folder isn't opened."""
        with self:
            return self._run([line_of(*call) for call in calls], self.width)

    def _report(self, *words, given=b""):
        with contextlib.ExitStack() as turn:
            # Where no lock can be made, as beside a folder that may only be read, a report is made without its turn.
            with contextlib.suppress(OSError):
                turn.enter_context(self)
            number, text, lines = self.ask(*words, given=given)
        if number != 0:
            raise Ended(number, text)
        return lines

    def _try(self, lines, left, width, results):
        """Runs the lines at these places, in as many runs as they need, and puts down what each gets. Gives whether a run ended early."""
        for part in parts([lines[place] for place in left], self.limit):
            sent = self._run([lines[left[at]] for at in part], width, retries=True)
            for at, result in zip(part, results_of(sent)):
                results[left[at]] = result
            if sent.number != 0:
                for place in left[part[-1] + 1 :]:
                    results[place] = Unanswered(sent.number, sent.text, sent=False, began=[], again=True)
                return True
        return False

    def _run(self, lines, width, retries=False):
        """One run. With `retries` the log is looked through too where a call may be sent again that nothing stays of."""
        before = self.records()
        number, text, found = self.ask("run", "--width", str(width), given=b"".join(lines))
        replies, others = {reply["n"]: reply for reply in found}, None
        self._is_in_doubt = any("in_doubt" in reply for reply in found)
        if number == DISK:
            text += AFTER_DISK
        elif number in NOT_CARRIED and not found:
            others = []
        elif number == DAMAGED:
            pass  # its log can't be looked through
        elif number != 0 or retries and any(map(may_be_sent_again, found)):
            try:
                new = self.history(before or 0)
            except Ended as ended:
                text += ended.text
            else:
                sure = {n: reply for n, reply in replies.items() if "in_doubt" not in reply}
                replies = {**{record["n"]: record for record in new if "n" in record}, **sure}
                others = [record for record in new if "n" not in record and "upgrade" not in record]
        return Sent(number, text, [replies.get(n + 1) for n in range(len(lines))], others, before)


def results_of(sent):
    """What each call of a run gets: a value, or a SiloError."""
    stays = None if sent.others is None else begun(sent.replies, sent.others)
    for reply in sent.replies:
        # What an unanswered call began is among those that no line is known of, and so may be what an aborted one began.
        began = None if stays is None else stays[None] + (stays[reply["n"]] if reply else [])
        if reply is None:
            yield Unanswered(sent.number, sent.text, began=began, again=began == [])
        elif "reply" in reply:
            yield reply["reply"]
        elif "bad" in reply:
            yield Bad(reply["bad"])
        elif "in_doubt" in reply:
            yield InDoubt(reply, sent.before)
        else:
            kind = Fault if "fault" in reply else Aborted
            yield kind(reply, began, again=began == [] and may_be_sent_again(reply))


def may_be_sent_again(reply):
    """Whether a call with this reply may be sent again, where nothing that it began stays."""
    return reply.get("aborted") in ("lock", "dependency") or reply.get("fault") == "aborted"
