"""One process a folder: what a second one answers while the first has it, and that a killed one leaves nothing locked."""
import contextlib
import os
import signal
import tempfile

from harness import BANK, Ended, Rows, ask, deposit, reply, run, start

LINES = 20
# More than a pipe takes, so that once it is written the run has begun to read: lines that are no requests, and requests.
BLANKS = 4
GIVEN = (b" " * 50_000 + b"\n") * BLANKS + deposit(1) * LINES
TAKEN = Ended(6, b"", b"silo: disk fault in manager-0.otx\n")

rows = Rows("one process")

with tempfile.TemporaryDirectory() as folder:
    run(folder, "init", given=BANK)

    # A run takes the folder before it reads its input.
    first = start(folder, "run")
    first.stdin.write(GIVEN)
    first.stdin.flush()
    for command in ("run", "init"):
        rows.row(f"{command} beside a run", run(folder, command, given=BANK), TAKEN)
    output, errors = first.communicate()
    rows.row("the run that has the folder", (first.returncode, output.count(b"\n"), errors), (0, BLANKS + LINES, b""))
    rows.row("afterwards", run(folder, "run", given=ask()), Ended(0, reply(1, LINES, LINES + 1), b""))

    # Killed while it has the folder.
    killed = start(folder, "run")
    killed.stdin.write(GIVEN)
    killed.stdin.flush()
    killed.kill()
    rows.row("a killed run", killed.wait(), -signal.SIGKILL)
    killed.stdin.close()
    killed.stdout.close()
    killed.stderr.close()
    rows.row("after a kill", run(folder, "run", given=ask()), Ended(0, reply(1, LINES, LINES + 2), b""))

    # Two at once: what is answered is in the folder.
    both = [start(folder, "run") for _ in range(2)]
    for it in both:
        # One that found the folder taken may have ended by now, and reads nothing.
        with contextlib.suppress(BrokenPipeError):
            it.stdin.write(deposit(1) * 50)
            it.stdin.close()
    outputs = [it.stdout.read() for it in both]
    texts = [it.stderr.read() for it in both]
    numbers = [it.wait() for it in both]
    for it in both:
        it.stdout.close()
        it.stderr.close()
    answered = sum(output.count(b"\n") for output in outputs)
    rows.row("two at once: numbers", all((n, t) in ((0, b""), (6, TAKEN.errors)) for n, t in zip(numbers, texts)), True)
    rows.row("two at once: one is done", 0 in numbers, True)
    rows.row("two at once: afterwards", run(folder, "run", given=ask()), Ended(0, reply(1, LINES + answered, LINES + 3 + answered), b""))
    rows.row("the files", sorted(os.listdir(folder)), ["grain-0-0-1.otx", "manager-0.otx", "program-0.otx"])

rows.end()
