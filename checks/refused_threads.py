"""Runs by workers where the system starts no thread, or not all: each line is carried all the same."""
import os
import shutil
import tempfile

from harness import BANK, OTHER_USER, PROGRAM, Ended, Rows, deposit, reply, run

LINES = 20
GIVEN = deposit(1) * LINES

rows = Rows("refused threads")

with tempfile.TemporaryDirectory() as room:
    # Another user may have to run it, who might not reach the program or the folder elsewhere.
    program, folder = os.path.join(room, "program"), os.path.join(room, "silo")
    shutil.copy(PROGRAM, program)
    os.chmod(program, 0o755)
    os.chmod(room, 0o755)
    os.mkdir(folder)
    if os.geteuid() == 0:
        os.chown(folder, OTHER_USER, OTHER_USER)
    run(folder, "init", given=BANK, threads=1, program=program)
    answers = b"".join(reply(n, n, n) for n in range(1, LINES + 1))
    rows.row("no thread", run(folder, "run", "--workers", "4", given=GIVEN, threads=1, program=program), Ended(0, answers, b""))
    # Some of sixteen are started; lines that they carry side by side may abort one another.
    some = run(folder, "run", "--workers", "16", given=GIVEN, threads=4, program=program)
    rows.row("some threads", (some.number, some.output.count(b"\n"), some.errors), (0, LINES, b""))

rows.end()
