"""What the checks of the shipped program share."""
import collections
import json
import os
import resource
import shutil
import subprocess
import sys
import tempfile
import time

TOP = os.path.dirname(os.path.dirname(os.path.abspath(__file__)))
PROGRAM = os.path.abspath(os.environ.get("SILO") or os.path.join(TOP, "crates", "silo", "out", "silo"))
# Where files lie in memory, so that syncs cost nothing: None where the system has no such place.
MEMORY = "/dev/shm" if os.access("/dev/shm", os.W_OK) else None
READER = os.path.join(TOP, "examples", "reader", "read.py")

# The program of the silos here.
with open(os.path.join(TOP, "examples", "bank", "bank.grain"), "rb") as file:
    BANK = file.read()

# A user who has nothing else to run.
OTHER_USER = 60_000 + os.getpid() % 5_000

# The program of the first deposit, whose bytes docs/FORMATS.md shows.
FIRST_PROGRAM = ("type account { field balance = 0; method deposit(n) createorjoin update "
                 "{ set balance = balance + n; return balance; } }")

# How a run of the program ended: its number, what it wrote, and what it said on standard error.
Ended = collections.namedtuple("Ended", "number output errors")


def line(call, *args):
    """A request line."""
    return json.dumps({"args": args, "call": call}).encode() + b"\n"


def deposit(amount, account=1):
    """A request line that deposits so much."""
    return line(f"account/{account}.deposit", amount)


def ask(account=1):
    """A request line that asks for a balance."""
    return line(f"account/{account}.read")


def objects(lines):
    """The JSON objects of whole lines; what is behind the last line feed is cut off."""
    return [json.loads(one) for one in lines.split(b"\n")[:-1]]


def reply(n, balance, unit):
    """The reply line that such a request gets."""
    return b'{"n":%d,"reply":%d,"unit":%d}\n' % (n, balance, unit)


def silent(output=b""):
    """How a run ends that does all."""
    return Ended(0, output, b"")


def says(number, text, output=b""):
    """How a run ends whose status has this text."""
    return Ended(number, output, b"silo: " + text + b"\n")


def little(value, size):
    """A number in so many bytes, its lowest first."""
    return value.to_bytes(size, "little")


def held(folder, name):
    """The bytes of a file of a folder."""
    with open(os.path.join(folder, name), "rb") as file:
        return file.read()


def files(folder):
    """The bytes of each regular file of a folder, by its name; None where there is no folder."""
    if not os.path.isdir(folder):
        return None
    return {name: held(folder, name) for name in sorted(os.listdir(folder)) if os.path.isfile(os.path.join(folder, name))}


def as_before(manager):
    """A manager file of format 2, as it is in format 1: no block says its session."""
    made, gate, is_checkpoint = [b"\1OTXLOG01", manager[9:15]], 15, manager[13] == 1
    while manager[gate] == 1:
        size = int.from_bytes(manager[gate + 1:gate + 5], "little")
        body, at = manager[gate + 5:gate + 5 + size], 17 if is_checkpoint else 0
        is_checkpoint = is_checkpoint and body[0] == 1
        made += [b"\1", (size - 8).to_bytes(4, "little"), body[:at], body[at + 8:]]
        gate += 5 + size
    return b"".join(made) + b"\0"


def make_old(folder):
    """Gives a silo's folder format 1, in which every block counts as one of session 1."""
    for slot in (0, 1):
        path = os.path.join(folder, f"manager-{slot}.otx")
        if os.path.exists(path):
            manager = held(folder, f"manager-{slot}.otx")
            if manager[:9] == b"\1OTXLOG02":
                with open(path, "wb") as file:
                    file.write(as_before(manager))


def run(*words, given=b"", closed=(), streams=None, memory=None, threads=None, open_files=None, bound=False, on=None, shim=None,
        seconds=100, program=PROGRAM):
    """Runs the program over this input, with these descriptors closed, and at most so many bytes of memory, threads and open files;
    `bound` by what the folder's files permit, which the superuser isn't; `on` these processors alone; with the words `shim` in the
    environment beside the others. One that takes longer than so many seconds is ended, and has no number."""

    def prepare():
        if memory is not None:
            resource.setrlimit(resource.RLIMIT_AS, (memory, memory))
        if threads is not None:
            resource.setrlimit(resource.RLIMIT_NPROC, (threads, threads))
        if open_files is not None:
            resource.setrlimit(resource.RLIMIT_NOFILE, (open_files, open_files))
        # The superuser isn't bound by that: another user is, whose threads are these alone.
        if (threads is not None or bound) and os.geteuid() == 0:
            os.setgid(OTHER_USER)
            os.setuid(OTHER_USER)
        if on is not None:
            os.sched_setaffinity(0, on)
        for number in closed:
            os.close(number)

    with tempfile.TemporaryFile() as given_to, tempfile.TemporaryFile() as output, tempfile.TemporaryFile() as errors:
        given_to.write(given)
        given_to.seek(0)
        at = {"stdin": given_to, "stdout": output, "stderr": errors, **(streams or {})}
        # What is done between fork and exec makes a start slow, and isn't for threads.
        limits = (memory, threads, open_files, on)
        before = prepare if closed or bound or any(limit is not None for limit in limits) else None
        try:
            number = subprocess.run([program, *words], preexec_fn=before, timeout=seconds, env={**os.environ, **(shim or {})}, **at).returncode
        except subprocess.TimeoutExpired:
            number = None
        output.seek(0)
        errors.seek(0)
        return Ended(number, output.read(), errors.read())


def read_states(folder):
    """What the reader of examples/reader says of a folder's states and the next unit, and the number that it ends with."""
    done = subprocess.run([sys.executable, READER, folder], capture_output=True)
    return done.returncode, [told for told in done.stdout.splitlines() if b'"grain"' in told or b'"next_unit"' in told]


def start(*words, shim=None):
    """Starts the program, whose input is a pipe that stays open."""
    return subprocess.Popen([PROGRAM, *words], stdin=subprocess.PIPE, stdout=subprocess.PIPE, stderr=subprocess.PIPE, env={**os.environ, **(shim or {})})


def comes(holds, seconds=60):
    """Whether something comes to hold within so many seconds."""
    until = time.monotonic() + seconds
    while not holds():
        if time.monotonic() > until:
            return False
        time.sleep(0.02)
    return True


def kill_after(seconds, *words, given=b""):
    """Runs the program over this input, and kills it after so many seconds."""
    with tempfile.TemporaryFile() as lines:
        lines.write(given)
        lines.seek(0)
        process = subprocess.Popen([PROGRAM, *words], stdin=lines, stdout=subprocess.DEVNULL, stderr=subprocess.DEVNULL)
        time.sleep(seconds)
        process.kill()
        process.wait()


def can_trace():
    """Whether calls of the system can be traced here."""
    return shutil.which("strace") is not None and subprocess.run(["strace", "true"], capture_output=True).returncode == 0


def silo_folder(room, name, *commands):
    """A new folder in this room, with an init of this program and runs of these requests."""
    path = os.path.join(room, name)
    os.mkdir(path)
    for at, given in enumerate(commands):
        assert run(path, "init" if at == 0 else "run", given=given).number == 0
    return path


def stand_in(room, name, *lines):
    """A program in place of the real one: a shell script of these lines."""
    path = os.path.join(room, name)
    with open(path, "w") as file:
        file.write("\n".join(["#!/bin/bash", *lines]) + "\n")
    os.chmod(path, 0o755)
    return path


def write_or_compare(crate, texts, words):
    """Writes what a program of tests is run on and what it has to say, or with the word `--check` says whether its files are these. Gives the
    status of the script that makes them."""
    if words not in ([], ["--check"]):
        print(f"the word is --check, or none: {' '.join(words)}", file=sys.stderr)
        return 2
    wrong = 0
    for name, text in zip(("stdin", "stdout"), texts):
        path = os.path.join(TOP, "crates", crate, name)
        if not words:
            with open(path, "w", encoding="utf-8") as file:
                file.write(text)
            continue
        with open(path, encoding="utf-8") as file:
            is_same = file.read() == text
        print(f"crates/{crate}/{name} {'is' if is_same else 'is not'} what is made here")
        wrong += not is_same
    return 1 if wrong else 0


class Rows:
    """Compares what was found with what was wanted, row by row."""

    def __init__(self, name):
        self.name, self.count, self.wrong = name, 0, 0

    def row(self, what, found, wanted):
        self.count += 1
        if found != wanted:
            self.wrong += 1
            print(f"{self.name}: {what}:\n  found  {found}\n  wanted {wanted}", file=sys.stderr)

    def end(self):
        """Says how many rows there were, and ends the check."""
        print(f"{self.name}: {self.count - self.wrong} rows passed, {self.wrong} failed")
        sys.exit(1 if self.wrong else 0)
