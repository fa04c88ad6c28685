"""The example client: what it says of each call, where all is answered, where a run ended early, and where a file failed."""
import os
import subprocess
import sys
import tempfile

from harness import BANK, PROGRAM, TOP, Rows, run, stand_in

rows = Rows("client")
CLIENT = os.path.join(TOP, "examples", "client", "client.py")


def client(program, folder):
    """The number that it ends with, and its lines."""
    done = subprocess.run([sys.executable, CLIENT, program, folder], capture_output=True, timeout=100)
    return done.returncode, (done.stdout + done.stderr).decode().splitlines()


with tempfile.TemporaryDirectory() as room:
    folder = os.path.join(room, "bank")
    os.mkdir(folder)
    none = "Unanswered: silo ended with 7: silo: not a silo; send it again"
    calls = ["account/1.deposit(5,)", "account/1.close()", "teller/0.transfer(1, 2, 7)", "teller/0.transfer(1, 2, 3)"]
    rows.row("no silo", client(PROGRAM, folder), (1, [*[f"{call}: {none}" for call in calls], "records: None before, None now"]))
    run(folder, "init", given=BANK)
    values = ["5", "Bad: method: the type has no such method; mend the call", "Fault: funds; the program said no", "3"]
    rows.row("replies", client(PROGRAM, folder), (0, [*map(": ".join, zip(calls, values)), "records: 0 before, 3 now"]))

    # A run whose output is closed ends at its first reply: the record of the call that is in the log answers it.
    mute = stand_in(room, "mute", f'[ "$2" != run ] || exec "{PROGRAM}" "$1" run --width 1 >&-', f'exec "{PROGRAM}" "$@"')
    cut = "Unanswered: silo ended with 5: silo: write fault; send it again"
    rows.row("a run that can't answer", client(mute, folder), (1, [f"{calls[0]}: 7", *[f"{call}: {cut}" for call in calls[1:]], "records: 3 before, 4 now"]))

    # Files that fail while lines are carried: named by an abort, or hidden behind a fault, with which each call is sent again.
    vote = stand_in(room, "vote", """[ "$2" != run ] || echo '{"aborted":"vote","grain":"account/1","n":1,"unit":1}
{"aborted":"disk","n":2,"unit":2}
{"n":3,"reply":7,"unit":3}
{"n":4,"reply":3,"unit":4}'""")
    values = [f"Aborted: aborted {said}; a file failed: look at the disk, then send it again" for said in ("vote, grain account/1", "disk")]
    rows.row("failed files", client(vote, folder), (0, [*map(": ".join, zip(calls, [*values, "7", "3"])), "records: 4 before, 4 now"]))
    hides = stand_in(room, "hides", "n=0", 'while [ "$2" = run ] && read -r _; do', """n=$((n + 1)); echo '{"fault":"aborted","n":'$n',"unit":'$n'}'""", "done")
    said = "Fault: aborted; a transaction of its own was aborted, each time: look at the disk, then send it again"
    rows.row("a file that failed behind a fault", client(hides, folder), (0, [*[f"{call}: {said}" for call in calls], "records: 4 before, 4 now"]))

    # After a disk fault the folder is asked nothing more, and what is in doubt stays so.
    asked = os.path.join(room, "asked")
    doubt = stand_in(room, "doubt", f'echo "$2" >>"{asked}"', """echo '{"in_doubt":true,"n":1,"unit":4}'; echo "silo: disk fault in manager-0.otx" >&2; exit 6""")
    number, lines = client(doubt, folder)
    said = "unit 4 is in the log or isn't; after \"After a failed sync\" in docs/OPERATIONS.md, look for line 1 in the history behind 4 records"
    rows.row("a batch in doubt", (number, lines[0]), (1, f"{calls[0]}: InDoubt: {said}"))
    rows.row("behind it", lines[1].startswith(f"{calls[1]}: Unanswered: silo ended with 6: silo: disk fault in manager-0.otx"), True)
    with open(asked) as file:
        rows.row("what was asked then", file.read(), "run\n")

    done = subprocess.run([sys.executable, CLIENT], capture_output=True)
    rows.row("no words", (done.returncode, done.stderr.startswith(b"Runs calls on a silo")), (1, True))

rows.end()
