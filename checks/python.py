"""The Python module: results by their calls, what is sent again and what isn't, what it gives where a run ended early, long inputs, the count
of records, and that pip installs it without a network."""
import json
import os
import pathlib
import shutil
import struct
import subprocess
import sys
import tempfile
import time

from harness import BANK, PROGRAM, TOP, Rows, run, silo_folder, stand_in

sys.dont_write_bytecode = True
sys.path.insert(0, os.path.join(TOP, "tools", "python"))
import silo  # noqa: E402

rows = Rows("python")
CALLS = [("account/1.deposit", [5]), ("account/1.close", []), ("teller/0.transfer", [1, 2, 7]), ("teller/0.transfer", [1, 2, 2])]

# Transactions of their own within others: `pay` notes first, which stays, and then asks for the account that `hold` has.
NESTED = b"""
type account {
  field balance = 0;
  method deposit(n) createorjoin update { set balance = balance + n; return balance; }
  method add(n) create update { set balance = balance + n; return balance; }
}
type note { field last = 0; method put(n) create update { set last = n; return n; } }
type desk {
  method pay(n) create plain { let x = call note/1.put(n); let y = call account/1.deposit(n); return y; }
  method hold(n) create plain { let y = call account/1.deposit(n); let x = call note/2.put(n); let z = call note/3.put(n); return y; }
}
type shop {
  method sell(n) create plain { let b = call account/1.add(n); return b; }
  method refuse() create plain { fail "aborted"; }
}
type helper { method pay(n) suppress plain { call account/1.deposit(n); return n; } }
"""


def turned(room, name, turns, runs=1):
    """The program with these turns in its first runs: so a conflict is had on purpose. What it was asked stands in NAME.asked."""
    return stand_in(room, name, f'echo "${{@:2}}" >>"{room}/{name}.asked"', f'if [ "$2" = run ] && [ "$(grep -c run "{room}/{name}.asked")" -le {runs} ]; then',
                    f'exec "{PROGRAM}" "$1" run --width 3 --turns {turns}', "fi", f'exec "{PROGRAM}" "$@"')


def asked(room, name):
    with open(os.path.join(room, f"{name}.asked")) as file:
        return file.read().split("\n")[:-1]


def shown(result):
    """A result as a plain value: of an error its kind, its text, whether it may be sent again, and the units that stay."""
    if not isinstance(result, silo.SiloError):
        return result
    began = getattr(result, "began", None)
    return (type(result).__name__, str(result), result.again, None if began is None else [record["unit"] for record in began])


with tempfile.TemporaryDirectory() as room:

    def folder(name, program=BANK):
        return silo_folder(room, name, program)

    # Results, and how a client is told what isn't a value.
    bank = folder("bank")
    with silo.Silo(bank, PROGRAM) as it:
        rows.row("a value", it.call("account/1.deposit", 5), 5)
        rows.row("a batch", [shown(result) for result in it.batch(CALLS)], [10, ("Bad", "method: the type has no such method", False, None), 7, 2])
        try:
            it.call("teller/0.transfer", 1, 2, 500)
            raised = None
        except silo.Fault as fault:
            raised = (fault.text, fault.unit, fault.call, fault.again)
        rows.row("a fault is raised", raised, ("funds", 5, ("teller/0.transfer", [1, 2, 500]), False))
        rows.row("a text of several letters", shown(it.batch([("account/1.deposit", ["Żółw"])])[0]), ("Fault", "kind", False, None))
        for call, args, word in (("account/x.read", [], "grain"), ("account/1.read", [1], "args"),
                                 ("account/1.deposit", [1.5], "args"), ("account/1.deposit", [True], "args")):
            rows.row(f"bad: {call} {args}", it.batch([(call, args)])[0].word, word)
        rows.row("reports", (it.show(), it.audit(), it.history(5), it.records()), (
            {"account/1": {"balance": 1}, "account/2": {"balance": 9}}, (6, None),
            [{"args": ["Żółw"], "call": "account/1.deposit", "fault": "kind", "n": 1, "session": 4, "unit": 6}], 6))
        rows.row("an empty batch", it.batch([]), [])
    made = silo.Silo(os.path.join(room, "made"), PROGRAM)
    made.init(BANK.decode())
    rows.row("init", made.call("account/7.deposit", 3), 3)
    try:
        made.init(BANK)
        found = None
    except silo.Ended as ended:
        found = (ended.number, ended.text)
    rows.row("init twice", found, (8, "silo: already a silo\n"))
    none = silo.Silo(os.path.join(room, "none"), PROGRAM)
    rows.row("no silo", ([shown(result) for result in none.batch(CALLS[:1])], none.records()),
             ([("Unanswered", "silo ended with 7: silo: not a silo", True, [])], None))

    # A file that is damaged: it may have been so only since the run began, so nothing is said of what was carried.
    with open(os.path.join(folder("damaged"), "manager-0.otx"), "r+b") as file:
        file.seek(14)
        file.write(b"\7")
    found = silo.Silo(os.path.join(room, "damaged"), PROGRAM).batch(CALLS[:1])
    rows.row("a damaged silo", [shown(result) for result in found], [("Unanswered", "silo ended with 9: silo: damaged manager-0.otx at 14", False, None)])

    # What a lock aborted is sent again, and so is the fault `aborted` of a call whose own transaction was aborted.
    program = turned(room, "locked", "0,1")
    with silo.Silo(folder("one", NESTED), program) as it:
        rows.row("aborted by a lock", it.batch([("account/1.deposit", [5]), ("account/1.deposit", [6])]), [5, 11])
    rows.row("aborted by a lock: asked", asked(room, "locked"), ["run --width 64", "history", "run --width 64"])
    program = turned(room, "inner", "0,0,0,1,1")
    sales = [("shop/0.sell", [5]), ("account/1.add", [7]), ("shop/0.sell", [1])]
    with silo.Silo(folder("two", NESTED), program) as it:
        rows.row("the fault of a child's abort", it.batch(sales), [13, 7, 8])
        rows.row("the fault of a child's abort: the log", [record.get("fault", record.get("reply")) for record in it.history() if "n" in record],
                 [7, "aborted", 8, 13])
    with silo.Silo(folder("three", NESTED), turned(room, "once", "0,1"), tries=1) as it:
        found = it.batch([("account/1.deposit", [5]), ("account/1.deposit", [6])])
        rows.row("one try", [shown(result) for result in found], [5, ("Aborted", "aborted lock, by 1, grain account/1", True, [])])
    always = stand_in(room, "always", f'echo "${{@:2}}" >>"{room}/always.asked"', "n=0", 'while [ "$2" = run ] && read -r _; do',
                      """n=$((n + 1)); echo '{"aborted":"lock","by":1,"grain":"account/1","n":'$n',"unit":'$((n + 1))'}'""", "done")
    with silo.Silo(folder("four", NESTED), always, width=8, tries=3) as it:
        rows.row("aborted each time", [shown(result) for result in it.batch(sales[:2])], [("Aborted", "aborted lock, by 1, grain account/1", True, [])] * 2)
    rows.row("the last try is one by one", [line for line in asked(room, "always") if "run" in line], ["run --width 8", "run --width 8", "run --width 1"])

    # A program's own fault of that text costs tries alone.
    with silo.Silo(folder("five", NESTED), turned(room, "own", "0", runs=0), tries=3) as it:
        rows.row("a program's own `aborted`", ([shown(result) for result in it.batch([("shop/0.refuse", [])])], it.records()), ([("Fault", "aborted", True, [])], 3))

    # What the call began stays: it isn't sent again, or the note would be there twice.
    with silo.Silo(folder("six", NESTED), turned(room, "noted", "0,1,1,1,1,1,1")) as it:
        found = it.batch([("desk/0.hold", [5]), ("desk/0.pay", [7])])
        rows.row("an abort whose child stays", [shown(result) for result in found], [5, ("Aborted", "aborted lock, by 1, grain account/1", False, [3])])
        rows.row("an abort whose child stays: the notes", sum(record["call"] == "note/1.put" for record in it.history()), 1)

    # Runs that end early: a closed output, which a record answers; a plain run, of which what it began is told; a disk fault.
    mute = stand_in(room, "mute", f'[ "$2" != run ] || exec "{PROGRAM}" "$@" >&-', f'exec "{PROGRAM}" "$@"')
    with silo.Silo(bank, mute, width=1) as it:
        found = it.batch([("account/2.deposit", [1])] * 2)
        rows.row("a call that is logged and not answered", [shown(result) for result in found],
                 [10, ("Unanswered", "silo ended with 5: silo: write fault", True, [])])
    with silo.Silo(folder("seven", NESTED), mute, width=1) as it:
        found = it.batch([("helper/0.pay", [5])])
        rows.row("a plain run that isn't answered", [shown(result) for result in found], [("Unanswered", "silo ended with 5: silo: write fault", False, [2])])
        record = {"args": [5], "call": "account/1.deposit", "parent": 3, "reply": 10, "session": 2, "unit": 4}
        rows.row("the same by send", it.send([("helper/0.pay", [5])]), (5, "silo: write fault\n", [None], [record], 1))
    doubt = stand_in(room, "doubt", f'echo "$2" >>"{room}/doubt.asked"', '[ "$2" = run ] || exit 0', """echo '{"in_doubt":true,"n":1,"unit":4}'""",
                     'echo "silo: disk fault in manager-0.otx" >&2', "exit 6")
    with silo.Silo(bank, doubt) as it:
        found = it.batch([("account/1.deposit", [5]), ("account/1.deposit", [6])])
        for what, ask in (("a call", lambda: it.call("account/1.read")), ("a report", it.show)):
            try:
                ask()
                raised = None
            except silo.Ended as ended:
                raised = (ended.number, ended.text)
            rows.row(f"{what} behind it", raised, (6, "a batch is in doubt: " + silo.AFTER_DISK))
    wanted = [("InDoubt", "unit 4 is in the log or isn't", False, None),
              ("Unanswered", "silo ended with 6: silo: disk fault in manager-0.otx\n" + silo.AFTER_DISK.strip(), False, None)]
    rows.row("a batch in doubt", ([shown(result) for result in found], found[0].before, asked(room, "doubt")), (wanted, 7, ["run"]))
    busy = silo.Silo(bank, PROGRAM)
    held = subprocess.Popen(["flock", bank, "sh", "-c", "echo; read -r line"], stdin=subprocess.PIPE, stdout=subprocess.PIPE)
    held.stdout.readline()
    rows.row("a folder that another process has", busy.batch([("account/1.read", [])])[0].number, 6)
    held.communicate(b"\n", timeout=60)
    rows.row("and then", busy.call("account/1.read"), 1)

    # A long input is split, in the order of the calls; what an ended run wasn't reached for is told as not sent.
    counted = turned(room, "counted", "0", runs=0)
    with silo.Silo(folder("eight", NESTED), counted, width=1, limit=200) as it:
        rows.row("a long input", it.batch([("account/1.deposit", [1])] * 10), list(range(1, 11)))
        size = len(silo.line_of("account/1.deposit", [1]))
    rows.row("a long input: runs", sum("run" in line for line in asked(room, "counted")), -(-10 // (200 // size)))
    rows.row("parts", [list(silo.parts([b"aa", b"bb", b"ccc", b"d", b"e"], 4))], [[[0, 1], [2, 3], [4]]])
    with silo.Silo(folder("nine", NESTED), mute, width=1, limit=size) as it:
        found = it.batch([("account/1.deposit", [1])] * 3)
        kinds = [type(result).__name__ if isinstance(result, silo.SiloError) else result for result in found]
        rows.row("behind an ended run", (kinds, [result.sent for result in found[1:]]), ([1, "Unanswered", "Unanswered"], [False, False]))
    try:
        silo.line_of("a/1.m", ["x" * silo.LINE_LIMIT])
        found = None
    except ValueError as fault:
        found = "bytes" in str(fault)
    rows.row("a line above the limit", found, True)

    # The count of records: that of the log, from block heads alone, so the length of a block costs nothing.
    load = os.path.join(room, "load")
    os.mkdir(load)
    run(load, "load", "300", "7", "--width", "16")
    sizes = silo.batches(load)
    count = json.loads(run(load, "show").output.splitlines()[-1])["count"]
    rows.row("records", (silo.records(load), sum(sizes), max(sizes) > 1, min(sizes) > 0), (count, count, True, True))
    sparse = os.path.join(room, "sparse")
    os.mkdir(sparse)
    with open(os.path.join(sparse, "manager-0.otx"), "wb") as file:
        file.write(b"\1OTXLOG02" + bytes(6))
        for at in range(3):
            file.write(b"\1" + struct.pack("<IQI", (1 << 32) - 1, 1, at + 5))
            file.seek((1 << 32) - 1 - 12, os.SEEK_CUR)
        file.write(b"\0")
    started = time.monotonic()
    rows.row("records of a log of 12 GiB", (silo.batches(sparse), time.monotonic() - started < 5), ([5, 6, 7], True))
    with open(os.path.join(sparse, "manager-0.otx"), "wb") as file:
        file.write(b"\1OTXLOG01" + bytes(6) + b"\1" + struct.pack("<II", 4, 7) + b"\1" + struct.pack("<II", 4, 2) + b"\0")
    rows.row("records of format 1", silo.batches(sparse), [7, 2])
    os.remove(os.path.join(sparse, "manager-0.otx"))
    rows.row("records of no silo", (silo.records(sparse), silo.records(os.path.join(room, "none")), silo.records(__file__)), (None, None, None))
    for what, make in (("a folder", os.mkdir), ("a pipe", os.mkfifo)):
        at = os.path.join(sparse, "manager-0.otx")
        make(at)
        rows.row(f"records where {what} is in the log's place", silo.records(sparse), None)
        (os.rmdir if what == "a folder" else os.remove)(at)

    # Clients take turns.
    with silo.Silo(bank, PROGRAM):
        held = subprocess.run(["flock", "-n", bank + ".lock", "true"])
        rows.row("a lock beside the folder", (held.returncode, run(bank, "audit").number), (1, 0))
    rows.row("the lock is given back", subprocess.run(["flock", "-n", bank + ".lock", "true"]).returncode, 0)

    with silo.Silo(folder("ten"), PROGRAM) as it:
        it.call("account/3.deposit", 4)
    os.remove(it.folder + ".lock")
    os.mkdir(it.folder + ".lock")
    rows.row("a report where no lock can be made", it.show(), {"account/3": {"balance": 4}})
    try:
        it.call("account/3.deposit", 4)
        raised = None
    except OSError as fault:
        raised = fault.filename
    rows.row("a run where no lock can be made", (raised, it.records()), (it.folder + ".lock", 1))

    # A folder may be named by a path object, and in any way: the lock is the same.
    here = os.getcwd()
    os.chdir(bank)
    with silo.Silo(pathlib.Path("."), PROGRAM) as it:
        held = subprocess.run(["flock", "-n", bank + ".lock", "true"])
        rows.row("the current folder", (held.returncode, it.records() == silo.records(bank), "..lock" in os.listdir(".")), (1, True, False))
    os.chdir(here)

    # Which program: that of SILO, or the repository's, built or not.
    asks = "import silo; print(silo.find_program())"
    copied = os.path.join(room, "repository")
    shutil.copytree(os.path.join(TOP, "tools", "python"), os.path.join(copied, "tools", "python"))
    env = {name: value for name, value in os.environ.items() if name != "SILO"}

    def program(**more):
        done = subprocess.run([sys.executable, "-c", asks], cwd=os.path.join(copied, "tools", "python"), env={**env, **more}, capture_output=True)
        return done.stdout.decode().strip()

    rows.row("a program that SILO names", program(SILO=PROGRAM), PROGRAM)
    rows.row("no program", program(PATH="/nowhere", SILO=os.path.join(room, "none")), "silo")
    stand_in(copied, "silo")
    rows.row("the launcher", program(), f"{copied}/silo")
    os.makedirs(os.path.join(copied, "crates", "silo", "out"))
    stand_in(copied, "crates/silo/out/silo")
    rows.row("a program that is built", program(), f"{copied}/crates/silo/out/silo")

    # pip, without a network, from a copy.
    copy = os.path.join(room, "copy")
    shutil.copytree(os.path.join(TOP, "tools", "python"), copy)
    try:
        words = [sys.executable, "-m", "pip", "install", "--quiet", "--no-index", "--no-deps", "--disable-pip-version-check",
                 "--target", os.path.join(room, "site"), copy]
        done = subprocess.run(words, capture_output=True, timeout=300)
        is_there = b"No module named pip" not in done.stderr
    except OSError:
        is_there = False
    if is_there:
        rows.row("pip", (done.returncode, done.stderr if done.returncode else b""), (0, b""))
        asks = [sys.executable, "-c", "import silo; print(silo.__file__, silo.Silo.__name__)"]
        said = subprocess.run(asks, env={**os.environ, "PYTHONPATH": os.path.join(room, "site")}, capture_output=True, cwd=room).stdout.decode()
        rows.row("the module that pip installed", said, f"{room}/site/silo.py Silo\n")
    else:
        print("python: there is no pip, so its install isn't shown")

rows.end()
