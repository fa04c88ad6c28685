"""tools/why: tells apart what is behind `disk fault in manager-0.otx` and `not a silo`, each of which has several causes."""
import errno
import importlib.machinery
import importlib.util
import os
import shutil
import stat
import subprocess
import sys
import tempfile

import shim
from harness import BANK, OTHER_USER, PROGRAM, TOP, Ended, Rows, comes, deposit, run, silo_folder, start

rows = Rows("why")
WHY = os.path.join(TOP, "tools", "why")
FAULT, NOT_A_SILO = Ended(6, b"", b"silo: disk fault in manager-0.otx\n"), Ended(7, b"", b"silo: not a silo\n")
OLD_FORMAT = Ended(14, b"", b"silo: old format\n")
NOTHING = "nothing is seen to be in the way of {}: if a call failed, look for errors of the disk in the system's log (dmesg)"


sys.dont_write_bytecode = True
loader = importlib.machinery.SourceFileLoader("why", WHY)
module = importlib.util.module_from_spec(importlib.util.spec_from_loader("why", loader))
loader.exec_module(module)


def why(folder, cwd=None):
    """What it says of a folder, and the number that it ends with."""
    done = subprocess.run([sys.executable, WHY, folder], capture_output=True, cwd=cwd)
    return done.stdout.decode().rstrip("\n") + done.stderr.decode(), done.returncode


def why_other(folder):
    """What it says to another user, who may have no Python to start."""
    ours, theirs = os.pipe()
    child = os.fork()
    if child == 0:
        os.setgid(OTHER_USER)
        os.setuid(OTHER_USER)
        os.write(theirs, (module.why(folder) or "nothing").encode())
        os._exit(0)
    os.close(theirs)
    os.waitpid(child, 0)
    with os.fdopen(ours) as said:
        return said.read()


def as_other(folder, word, given=b""):
    """How silo ends as another user."""
    return run(folder, word, given=given, threads=1000)


with tempfile.TemporaryDirectory() as room:
    os.chmod(room, 0o755)

    def folder(name, *commands):
        return silo_folder(room, name, *commands)

    def tells(what, path, ended, wanted, word="init", given=BANK):
        """That silo ends so over this folder, and what is said of it."""
        rows.row(f"{what}: silo", run(path, word, given=given), ended)
        rows.row(what, why(path), (wanted, 1))

    # 6 before anything was carried, and 7: seven causes of the one, four of the other.
    bank = folder("bank", BANK, deposit(5))
    gone = os.path.join(room, "banc")
    tells("no folder", gone, FAULT, f"{gone} isn't there: mkdir {gone}, then init; or is {bank} meant?")
    tells("no folder, of a run", gone, NOT_A_SILO, f"{gone} isn't there: mkdir {gone}, then init; or is {bank} meant?", "run")
    plain = os.path.join(room, "plain")
    shutil.copy(__file__, plain)
    tells("a file", plain, FAULT, f"{plain} is no folder")
    # A name that isn't UTF-8, in a locale that is.
    odd_name = os.path.join(os.fsencode(room), b"\xff")
    done = subprocess.run([sys.executable, WHY, odd_name], capture_output=True, env={**os.environ, "LC_ALL": "C.UTF-8"})
    rows.row("a name that isn't UTF-8", (done.returncode, done.stdout, done.stderr), (1, odd_name + b" isn't there: mkdir " + odd_name + b", then init\n", b""))
    pipe = folder("pipe")
    os.mkfifo(os.path.join(pipe, "manager-0.otx"))
    rows.row("a pipe for a file", why(pipe), (f"manager-0.otx in {pipe} is no file", 1))
    odd = folder("odd")
    os.mkdir(os.path.join(odd, "manager-0.otx"))
    tells("a folder for a file", odd, FAULT, f"manager-0.otx in {odd} is no file", "run")

    going = start(bank, "run")
    rows.row("another process comes to have it", comes(lambda: why(bank)[1] == 1), True)
    rows.row("another process: silo", run(bank, "run"), FAULT)
    rows.row("another process", why(bank), (f"another process ({os.path.basename(PROGRAM)}, {going.pid}) has {bank}: wait for it (flock {bank} true)", 1))
    going.communicate(timeout=60)
    holder = subprocess.Popen(["flock", bank, "sh", "-c", "echo; read -r line"], stdin=subprocess.PIPE, stdout=subprocess.PIPE)
    holder.stdout.readline()
    rows.row("another program has it", why(bank), (f"another process (flock, {holder.pid}) has {bank}: wait for it (flock {bank} true)", 1))
    holder.communicate(b"\n", timeout=60)
    rows.row("nothing", why(bank), (NOTHING.format(bank), 0))
    rows.row("it left no lock", run(bank, "audit"), Ended(0, b'{"count":1,"first_bad":null}\n', b""))

    # A disk that fails.
    library = shim.build(room)
    if library is None:
        print("why: there is no C compiler here, so no call fails")
    else:
        fails = shim.words(library, kinds="read", names="manager-0.otx", at=1, fail=errno.EIO)
        done = subprocess.run([sys.executable, WHY, bank], capture_output=True, env={**os.environ, **fails})
        rows.row("a disk that fails", (done.returncode, done.stdout, done.stderr), (1, f"a call on {bank} failed: Input/output error\n".encode(), b""))

    # Permissions bind another user than the superuser.
    if os.geteuid() == 0:
        me = OTHER_USER
        os.chmod(bank, 0o700)
        rows.row("a closed folder: silo", as_other(bank, "run").number, 6)
        rows.row("a closed folder", why_other(bank), f"no permission to read {bank}: it is 700, of user 0, and this is user {me}")
        os.chmod(bank, 0o755)
        rows.row("a folder for reading", why_other(bank), f"no permission to write into {bank}: it is 755, of user 0, and this is user {me}")
        shared = folder("shared", BANK, deposit(5))
        os.chmod(shared, 0o777)
        for name in os.listdir(shared):
            os.chmod(os.path.join(shared, name), 0o666)
        rows.row("an open folder", why_other(shared), "nothing")
        os.chmod(os.path.join(shared, "manager-0.otx"), 0o600)
        rows.row("a closed file: silo", as_other(shared, "run"), FAULT)
        rows.row("a closed file", why_other(shared), f"no permission to read and write manager-0.otx in {shared}: it is 600, of user 0, and this is user {me}")
        os.chmod(os.path.join(shared, "grain-0-0-1.otx"), 0o444)
        rows.row("two closed files", why_other(shared),
                 f"no permission to read and write manager-0.otx in {shared} and 1 more: it is 600, of user 0, and this is user {me}")
        os.chmod(os.path.join(shared, "manager-0.otx"), 0o666)
        rows.row("a file for reading", why_other(shared), f"no permission to write grain-0-0-1.otx in {shared}: it is 444, of user 0, and this is user {me}")
        os.chmod(room, 0o700)
        rows.row("a closed way to it", why_other(shared), f"{shared} can't be reached: Permission denied")
        os.chmod(room, 0o755)
    else:
        print("why: permissions aren't shown, since this is no superuser")

    # What is no silo.
    empty = folder("empty")
    tells("an empty folder", empty, NOT_A_SILO, f"{empty} is no silo yet: init", "run")
    with open(os.path.join(empty, "notes"), "w") as file:
        file.write("x")
    rows.row("a folder with another file", why(empty), (f"{empty} is no silo yet: init (what else is in it, as notes, does no harm)", 1))
    for name, bytes_, said in (
        ("begun", b"\0" * 16, "an init of {} didn't end: init again"),
        ("short", b"\0", "an init of {} didn't end: init again"),
        ("newer", b"\1OTXLOG03" + bytes(7), "{} has the format OTXLOG03: another version of silo made it"),
        ("other", b"#!/bin/sh\nexit 0\n", "manager-0.otx in {} isn't that of a silo: another program wrote it, or it was damaged; restore the last backup"),
    ):
        path = folder(name)
        with open(os.path.join(path, "manager-0.otx"), "wb") as file:
            file.write(bytes_)
        tells(name, path, NOT_A_SILO, said.format(path), "run")
    older = folder("older")
    with open(os.path.join(older, "manager-0.otx"), "wb") as file:
        file.write(b"\1OTXLOG01" + bytes(7))
    tells("older", older, OLD_FORMAT, f"{older} has the format of an earlier version: silo {older} migrate", "run")
    taken = os.path.join(room, "taken")
    shutil.copytree(os.path.join(TOP, "examples", "old"), taken)
    tells("a silo of format 1", taken, OLD_FORMAT, f"{taken} has the format of an earlier version: silo {taken} migrate", "run")
    rows.row("migrate", run(taken, "migrate").number, 0)
    rows.row("behind migrate", why(taken), (NOTHING.format(taken), 0))
    lost = folder("lost", BANK, deposit(5))
    os.remove(os.path.join(lost, "manager-0.otx"))
    said = f"{lost} has files of a silo, and no manager-0.otx, which has the log: restore the last backup; an init makes a new silo"
    tells("a manager file that is gone", lost, NOT_A_SILO, said, "run")
    dented = folder("dented", BANK, deposit(5))
    os.remove(os.path.join(dented, "grain-0-0-1.otx"))
    os.mkdir(os.path.join(dented, "grain-0-0-1.otx"))
    ended = Ended(6, b"", b"silo: disk fault in grain-0-0-1.otx\n")
    tells("a folder for a grain's file", dented, ended, f"grain-0-0-1.otx in {dented} is no file", "run")
    rows.row("the empty text", why(""), ("the empty text stands for the current folder: name it as .", 1))
    before = os.stat(os.path.join(bank, "manager-0.otx"))
    rows.row("the current folder", why(".", cwd=bank), (NOTHING.format("."), 0))
    after = os.stat(os.path.join(bank, "manager-0.otx"))
    rows.row("nothing was written", (before.st_mtime_ns, before.st_size, stat.S_IMODE(before.st_mode)),
             (after.st_mtime_ns, after.st_size, stat.S_IMODE(after.st_mode)))

    # A small disk, and one that may only be read: where this process may mount one for itself.
    script = """mount -t tmpfs -o size=300k none "$1" && mkdir "$1/bank" && "$2" "$1/bank" init <"$3" && { head -c 1000000 /dev/zero >"$1/fill" 2>/dev/null
      "$4" "$5" "$1/bank"; rm "$1/fill"; mount -o remount,ro "$1"; "$2" "$1/bank" run </dev/null; echo $?; "$4" "$5" "$1/bank"; }; true"""
    at = folder("mounted")
    text = os.path.join(TOP, "examples", "bank", "bank.grain")
    mounts = ["unshare", "-m", "sh", "-c", script, "sh", at, PROGRAM, text, sys.executable, WHY]
    done = subprocess.run(mounts, capture_output=True) if shutil.which("unshare") else None
    bare = ["unshare", "-m", "sh", "-c", 'umount -l /proc && exec "$@"', "sh", sys.executable, WHY, bank]
    if done and done.stdout:
        rows.row("no /proc", subprocess.run(bare, capture_output=True).stdout, b"/proc isn't mounted, and silo looks for a folder's files under it\n")
        said = done.stdout.decode().split("\n")
        rows.row("a full disk", said[0], f"the disk of {at}/bank is full")
        rows.row("read-only: silo", said[1] in ("0", "6"), True)
        rows.row("read-only", said[2], f"{at}/bank is on a file system that is mounted read-only, and a run writes")
    else:
        print("why: a full disk and one for reading aren't shown, since none can be mounted here")

rows.end()
