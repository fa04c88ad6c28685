"""What the benchmarks share: the program that is timed, the words that they are called with, the bank and its request lines, and what a
process takes."""
import collections
import os
import resource
import subprocess
import sys
import time

TOP = os.path.dirname(os.path.dirname(os.path.abspath(__file__)))
PROGRAM = os.path.abspath(os.environ.get("SILO") or os.path.join(TOP, "crates", "silo", "out", "silo"))
if not os.access(PROGRAM, os.X_OK):
    sys.exit(f"{PROGRAM} isn't there: ./silo builds it, or SILO names another program")


def words(*defaults):
    """The words of the command line, with these in place of those that aren't given."""
    given = sys.argv[1:]
    return [*given, *defaults[len(given):]]


def bank():
    """The text of the bank's program."""
    with open(os.path.join(TOP, "examples", "bank", "bank.grain"), "rb") as file:
        return file.read()


def new_bank(room):
    """The folder of a new silo of the bank, in this one."""
    folder = os.path.join(room, "silo")
    os.mkdir(folder)
    subprocess.run([PROGRAM, folder, "init"], input=bank(), check=True)
    return folder


def draws(seed=7):
    """Numbers at random, the same in each call."""
    while True:
        seed = (seed * 6364136223846793005 + 1442695040888963407) % 2**64
        yield seed // 2147483648 // 4


def drawn_transfers(count):
    """So many transfers among 64 accounts: from which, to which, and how much."""
    draw = draws()
    for _ in range(count):
        yield next(draw) % 64, next(draw) % 64, next(draw) % 100 + 1


def transfers(count):
    """The request lines of 64 deposits of 1,000 each, and behind them of so many transfers among these accounts."""
    lines = [b'{"args":[1000],"call":"account/%d.deposit"}\n' % key for key in range(64)]
    return lines + [b'{"args":[%d,%d,%d],"call":"teller/0.transfer"}\n' % transfer for transfer in drawn_transfers(count)]


def figure(pid, name, word):
    """The number behind a word in a process's file of /proc, 0 where it isn't there any more."""
    try:
        with open(f"/proc/{pid}/{name}") as told:
            return next((int(line.split()[1]) for line in told if line.startswith(word)), 0)
    except OSError:
        return 0


def peak(pid):
    """The most bytes that a process itself has had in memory so far. What the system tells of a child at its end counts the process that it
    came from, so this is asked while the child runs."""
    return figure(pid, "status", "VmHWM:") * 1024


# How a run ended, and what it took: seconds by the clock and of a processor, the most bytes of memory, and how many reads.
Taken = collections.namedtuple("Taken", "number clock processor peak reads")


def taken_by(words, **streams):
    """Runs the program, and gives what it took. The memory is asked for while it runs, and the reads when it has ended."""
    begun, most = time.monotonic(), 0
    process = subprocess.Popen([PROGRAM, *words], **streams)
    while os.waitid(os.P_PID, process.pid, os.WEXITED | os.WNOWAIT | os.WNOHANG) is None:
        most = max(most, peak(process.pid))
        time.sleep(0.002)
    clock, reads = time.monotonic() - begun, figure(process.pid, "io", "syscr:")
    _, status, used = os.wait4(process.pid, 0)
    process.returncode = os.waitstatus_to_exitcode(status)
    return Taken(process.returncode, clock, used.ru_utime + used.ru_stime, most, reads)


def processor():
    """The seconds of a processor that all children have taken that have ended: of the program's own, and of the system's."""
    taken = resource.getrusage(resource.RUSAGE_CHILDREN)
    return taken.ru_utime, taken.ru_stime
