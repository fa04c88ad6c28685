"""Folders that are renamed or replaced while the program has them, that hold what is no file, or that may only be read.

Folders and files are moved between two calls of the program by a library (`checks/faults.c`), where there is a C compiler, and while a
run waits for its input. What was answered before stays, what is answered is in the log of one folder, and nothing else is
changed; a report ends, and tells what it told before.
"""
import contextlib
import itertools
import json
import os
import shutil
import socket
import subprocess
import tempfile

import shim
from harness import BANK, PROGRAM, Ended, Rows, ask, deposit, files, objects, run, says, silent, silo_folder, start

rows = Rows("folders")

# A run has begun to read its input once it has taken more than a pipe holds, and has the folder and its log then: lines that are no
# requests.
FIRST_LINES = (b" " * 50_000 + b"\n") * 4
REPORTS = ("show", "history", "audit")
ALL_IS_WELL = b'"first_bad":null}\n'
SECONDS = 5
# The folder itself and its files, as the library names them.
FILES = ".,manager-*,program-*,grain-*"


def history(folder):
    """The records of a folder's log, as lines of text."""
    return run(folder, "history", seconds=SECONDS).output.split(b"\n")[:-1]


def fault_in(name):
    return says(6, b"disk fault in " + name.encode())


def with_reply(output):
    """The replies of an output that say that something was committed, as pairs of a line and a unit."""
    return {(reply["n"], reply["unit"]) for reply in objects(output) if "reply" in reply}


def is_kept(folder, before):
    """What is wrong with a folder whose log held these records: None where it has them still and replays."""
    if history(folder)[: len(before)] != before:
        return "its log has lost records"
    if not run(folder, "audit", seconds=SECONDS).output.endswith(ALL_IS_WELL):
        return "its log doesn't replay"
    return None


def logged(folder, before):
    """The lines and units of the records behind those that were there before."""
    return {(record["n"], record["unit"]) for record in map(json.loads, history(folder)[len(before) :]) if "n" in record}


def judged(ended, folders, numbers=(0, 6)):
    """What is wrong where a run ended so, over folders of which one was its own; each with the records that it had before."""
    wrong = [f"{os.path.basename(folder)}: {what}" for folder, before, _ in folders if (what := is_kept(folder, before))]
    if ended.number not in numbers:
        wrong.append(f"it ended with {ended.number}: {ended.errors}")
    # Its folder is that which holds what it answered; the others are as they were.
    said = with_reply(ended.output)
    if not any(said <= logged(folder, before) and all(files(other) == held for other, _, held in folders if other != folder)
               for folder, before, _ in folders):
        wrong.append(f"what it answered ({sorted(said)}) isn't in one folder alone")
    return wrong


with tempfile.TemporaryDirectory() as room:
    library = shim.build(room)
    if library is None:
        print("folders: there is no C compiler here, so no folder is moved between two calls")
    made = 0

    def silo(*inputs):
        """A new silo in a folder of its own, of which runs have carried these lines."""
        global made
        made += 1
        return silo_folder(room, f"silo{made}", BANK, *inputs)

    def told(folder):
        """A folder with its records and bytes."""
        return folder, history(folder), files(folder)

    LINES = deposit(5) + deposit(6, 2)

    def backed_up():
        """A silo of some deposits, and a copy of it that was made before the last of them."""
        folder = silo(LINES)
        backup = folder + "-backup"
        shutil.copytree(folder, backup)
        run(folder, "run", given=LINES + deposit(7, 3))
        return folder, backup

    # A folder that is renamed, or replaced by its backup, before each call of a run that takes a path: for good, or for that call.
    if library is not None:
        folder, noted = silo(LINES), os.path.join(room, "notes")
        # The first transaction writes no grain, so its batch needs the manager file alone.
        given = ask() + LINES
        ended = run(folder, "run", given=given, shim=shim.words(library, notes=noted))
        calls = [call for call in shim.notes(noted) if call.kind in ("open", "look") and (call.name == "." or call.name.endswith(".otx"))]
        rows.row("the library notes the calls of a run", (ended.number, [call.name for call in calls if call.kind == "open"][:1]), (0, ["."]))
        for at, (replaced, back) in itertools.product(range(1, len(calls) + 1), itertools.product((False, True), (False, True))):
            folder, backup = backed_up()
            away = folder + "-away"
            before = told(folder)[1:], told(backup)[1:]
            moves = [folder, away] + [backup, folder] * replaced
            undone = moves[::-1] if back else []
            ended = run(folder, "run", given=given, seconds=SECONDS, shim=shim.words(
                library, kinds="open,look", names=FILES, at=at, moves="\n".join(moves), next="\n".join(undone) if back else None))
            what = f"a folder that is {'replaced' if replaced else 'renamed'} before call {at}, {' '.join(calls[at - 1][:2])}{', and put back' if back else ''}"
            # A run that makes no more calls puts nothing back.
            if os.path.exists(away):
                for source, to in zip(undone[::2], undone[1::2]):
                    os.rename(source, to)
            folders = [(folder if back else away, *before[0]), *([(backup if back else folder, *before[1])] if replaced else [])]
            # Where it is gone before the first of them, there is no silo at the path.
            rows.row(what, judged(ended, folders, (0, 6, 7) if at == 1 and not replaced else (0, 6)), [])
            if not replaced and not back:
                rows.row(f"{what}: nothing is made at its path", os.path.exists(folder), False)

    # While a run waits for its input.

    def waiting(folder):
        """A run over the folder that has it, and waits for its lines."""
        it = start(folder, "run")
        with contextlib.suppress(BrokenPipeError):
            it.stdin.write(FIRST_LINES)
            it.stdin.flush()
        return it

    def carries(it, lines):
        """How a run ends that is given these lines, and then no more."""
        try:
            output, errors = it.communicate(lines, timeout=SECONDS)
        except subprocess.TimeoutExpired:
            it.kill()
            output, errors = it.communicate()
            return Ended(None, output, errors)
        return Ended(it.returncode, output, errors)

    for second_waits in (False, True):
        for last in ("first", "second"):
            folder, backup = backed_up()
            away = folder + "-away"
            before = told(folder)[1:], told(backup)[1:]
            first = waiting(folder)
            os.rename(folder, away)
            os.rename(backup, folder)
            if second_waits:
                second = waiting(folder)
                order = [("second", second), ("first", first)] if last == "first" else [("first", first), ("second", second)]
                ends = {name: carries(it, LINES) for name, it in order}
            elif last == "first":
                ends = {"second": run(folder, "run", given=FIRST_LINES + LINES), "first": carries(first, LINES)}
            else:
                ends = {"first": carries(first, LINES), "second": run(folder, "run", given=FIRST_LINES + LINES)}
            what = f"a backup that is restored while a run waits, and a second run that {'waits too' if second_waits else 'does not wait'}; the {last} ends last"
            wrong = [is_kept(away, before[0][0]), is_kept(folder, before[1][0])]
            found = [logged(away, before[0][0]), logged(folder, before[1][0])]
            rows.row(f"{what}: both folders", wrong, [None, None])
            rows.row(f"{what}: the second run is done, and has logged what it answered",
                     (ends["second"].number, with_reply(ends["second"].output) == found[1], len(found[1])), (0, True, 2))
            rows.row(f"{what}: the first logs in its own folder what it answers",
                     (ends["first"].number in (0, 6), with_reply(ends["first"].output) <= found[0]), (True, True))

    folder, away = silo(LINES), os.path.join(room, "renamed")
    before = told(folder)[1:]
    first = waiting(folder)
    os.rename(folder, away)
    rows.row("a folder that is renamed while a run waits", judged(carries(first, LINES), [(away, *before)]), [])
    rows.row("nothing is made at its path", os.path.exists(folder), False)

    folder = silo(LINES)
    first = waiting(folder)
    shutil.rmtree(folder)
    ended = carries(first, LINES)
    rows.row("a folder that is removed while a run waits", (ended.number in (0, 6), with_reply(ended.output), os.path.exists(folder)), (True, set(), False))

    # A file that had bytes, and that is gone while a run waits: nothing that needs it is answered, and once it is back all is as it was.
    for name in ("manager-0.otx", "grain-0-0-1.otx"):
        folder = silo(LINES)
        before = told(folder)[1:]
        first = waiting(folder)
        os.rename(os.path.join(folder, name), os.path.join(room, "gone"))
        ended = carries(first, deposit(5))
        rows.row(f"{name} is gone while a run waits", (ended.number in (0, 6), with_reply(ended.output)), (True, set()))
        rows.row(f"{name} isn't made anew", os.path.exists(os.path.join(folder, name)), False)
        os.rename(os.path.join(room, "gone"), os.path.join(folder, name))
        rows.row(f"{name} is put back", (is_kept(folder, before[0]), history(folder) == before[0]), (None, True))

    # A file that is gone before a run.
    for name, wanted in (("manager-0.otx", says(7, b"not a silo")), ("program-0.otx", says(9, b"damaged program-0.otx at 0")),
                         ("grain-0-0-1.otx", says(9, b"damaged grain-0-0-1.otx at 0"))):
        folder = silo(LINES)
        os.remove(os.path.join(folder, name))
        held = files(folder)
        for command in ("run", *REPORTS):
            rows.row(f"{command} without {name}", (run(folder, command, given=LINES), files(folder) == held), (wanted, True))

    # What is no file, under a file's name. The program ends, and doesn't wait for another one.

    def fifo(path):
        os.mkfifo(path)

    def fifo_in_use(path):
        os.mkfifo(path)
        return os.open(path, os.O_RDWR)

    def unix_socket(path):
        with socket.socket(socket.AF_UNIX) as it:
            it.bind(path)

    def zeros(path):
        os.symlink("/dev/zero", path)

    ODD = [("a pipe", fifo), ("a pipe that another reads and writes", fifo_in_use), ("a folder", os.mkdir), ("a socket", unix_socket), ("a device", zeros)]
    for what, make in ODD:
        for name in ("manager-0.otx", "program-0.otx", "grain-0-0-1.otx"):
            folder = silo(LINES)
            path = os.path.join(folder, name)
            os.remove(path)
            held, kept = files(folder), make(path)
            for command in ("run", *REPORTS):
                rows.row(f"{command} where {name} is {what}", run(folder, command, given=LINES, seconds=SECONDS), fault_in(name))
            if name == "manager-0.otx":
                for command in (("init",), ("load", "4", "7")):
                    rows.row(f"{command[0]} where {name} is {what}", run(folder, *command, given=BANK, seconds=SECONDS), fault_in(name))
            rows.row(f"the other files where {name} is {what}", files(folder), held)
            if kept is not None:
                os.close(kept)
        # Under the name of a grain's file that isn't there yet: its grain's transaction is aborted, the others go on.
        folder = silo(LINES)
        kept = make(os.path.join(folder, "grain-0-0-9.otx"))
        ended = run(folder, "run", given=deposit(4, 9) + deposit(5), seconds=SECONDS)
        wanted = b'{"aborted":"vote","grain":"account/9","n":1,"unit":3}\n{"n":2,"reply":10,"unit":4}\n'
        rows.row(f"a new grain whose file is {what}", ended, silent(wanted))
        if kept is not None:
            os.close(kept)
        # `init` in a folder that isn't a silo yet.
        folder = os.path.join(room, f"new{ODD.index((what, make))}")
        os.mkdir(folder)
        kept = make(os.path.join(folder, "program-0.otx"))
        rows.row(f"init where the program file is {what}", run(folder, "init", given=BANK, seconds=SECONDS), fault_in("program-0.otx"))
        rows.row(f"run behind that, where it is {what}", run(folder, "run", given=LINES, seconds=SECONDS), says(7, b"not a silo"))
        if kept is not None:
            os.close(kept)

    # A folder that may only be read: reports tell what they told before, and nothing is changed or answered as if it were logged.

    def only_read(what, folder, told_before, go):
        held = files(folder)
        for command in REPORTS:
            rows.row(f"{command} of {what}", go(command), told_before[command])
        ended = go("run", given=LINES)
        rows.row(f"run over {what}", (ended.number in (0, 6), with_reply(ended.output)), (True, set()))
        rows.row(f"init over {what}", go("init", given=BANK).number in (6, 8), True)
        # The first thing that it writes is the other slot's header gate.
        rows.row(f"compact over {what}", go("compact"), fault_in("manager-1.otx"))
        rows.row(f"the bytes of {what}", files(folder), held)

    program = os.path.join(room, "program")
    shutil.copy(PROGRAM, program)
    os.chmod(program, 0o755)
    os.chmod(room, 0o755)

    folder = silo(LINES)
    reports = {command: run(folder, command) for command in REPORTS}
    for name in os.listdir(folder):
        os.chmod(os.path.join(folder, name), 0o444)
    os.chmod(folder, 0o555)
    only_read("a folder that may only be read", folder, reports, lambda *words, given=b"": run(folder, *words, given=given, bound=True, program=program))
    os.chmod(folder, 0o755)

    folder = silo(LINES)
    reports = {command: run(folder, command) for command in REPORTS}
    MOUNTED = 'mount --bind "$0" "$0" && mount -o remount,ro,bind "$0" && exec "$@"'
    unshared = ["unshare", "--mount", "sh", "-c", MOUNTED, folder]
    with contextlib.suppress(OSError):
        mounts = shutil.which("unshare") and subprocess.run([*unshared, "true"], stderr=subprocess.DEVNULL).returncode == 0
    if mounts:
        only_read("a folder that is mounted to be read", folder, reports,
                  lambda *words, given=b"": run(*unshared[1:], program, folder, *words, given=given, program=unshared[0]))
    else:
        print("folders: nothing can be mounted here, so no folder is mounted to be read")

rows.end()
