"""Runs by workers: where a run of one thread fixes the replies they are the same, and no run makes or loses money. What a run by
workers has answered stays, where its output breaks off or its memory ends."""
import json
import os
import subprocess
import tempfile

from harness import BANK, MEMORY, PROGRAM, TOP, Rows, deposit, line, objects, run, silo_folder
from kept import money

WORKERS = ("1", "2", "16")
ACCOUNTS = 8
MONEY = 1000 * ACCOUNTS
LINE_LIMIT = 65_536
PAID_IN = b"".join(deposit(1000, account) for account in range(ACCOUNTS))


def transfers(count):
    """Transfers round and round."""
    return b"".join(line("teller/0.transfer", at % ACCOUNTS, (at * 3 + 1) % ACCOUNTS, 1 + at % 7) for at in range(count))


def number(reply):
    """The number of the reply's line."""
    return reply["n"]


def kept(folder, before, replies):
    """Whether each commit that was answered has its record behind those that were there, with its line and result."""
    records = {record["unit"]: record for record in objects(run(folder, "history").output)[before:]}
    return all(reply["unit"] in records and records[reply["unit"]]["n"] == reply["n"] and records[reply["unit"]].get("reply") == reply["reply"]
               for reply in replies if "reply" in reply)


rows = Rows("workers")

with tempfile.TemporaryDirectory(dir=MEMORY) as room:
    made = 0

    def silo(given=PAID_IN):
        """A new silo of the bank, behind a run of these lines."""
        global made
        made += 1
        return silo_folder(room, str(made), BANK, given)

    # The examples' requests, one line after another and by one worker: each line is carried alone, so the replies are fixed.
    for name in ("bank", "stock"):
        with open(os.path.join(TOP, "examples", name, f"{name}.grain"), "rb") as file:
            program = file.read()
        with open(os.path.join(TOP, "examples", name, "requests.jsonl"), "rb") as file:
            requests = file.read()
        folders = [silo_folder(room, f"{name}{n}", program) for n in (1, 2)]
        one, other = run(folders[0], "run", given=requests), run(folders[1], "run", "--workers", "1", given=requests)
        found, wanted = ((ended.number, sorted(objects(ended.output), key=number), ended.errors) for ended in (other, one))
        rows.row(f"{name} by one worker", found, wanted)

    # Lines that don't meet: each reply is fixed but for the unit's number and its place.
    apart = b"".join(deposit(5, account) for account in range(100, 164))
    for workers in WORKERS:
        found = run(silo(), "run", "--workers", workers, given=apart)
        replies = sorted((reply["n"], reply.get("reply")) for reply in objects(found.output))
        rows.row(f"lines apart by {workers}", (found.number, replies), (0, [(n, 5) for n in range(1, 65)]))

    # Lines that meet: each has one reply, the money is all there, and the log replays.
    for workers in WORKERS:
        folder = silo()
        found = run(folder, "run", "--workers", workers, given=transfers(400))
        replies = objects(found.output)
        rows.row(f"transfers by {workers}", (found.number, sorted(map(number, replies)), money(folder), kept(folder, ACCOUNTS, replies)),
                 (0, list(range(1, 401)), MONEY, True))
        rows.row(f"an audit behind {workers}", run(folder, "audit").output.endswith(b'"first_bad":null}\n'), True)

    # No line, a bad line, a line that is too long.
    for workers in WORKERS:
        folder = silo()
        for what, given in (("no line", b""), ("bad lines", b"{\n\n"), ("too long", b" " * (LINE_LIMIT + 1))):
            alone = run(silo(), "run", given=given)
            found = run(folder, "run", "--workers", workers, given=given)
            found, alone = ((ended.number, sorted(ended.output.split(b"\n")), ended.errors) for ended in (found, alone))
            rows.row(f"{what} by {workers}", found, alone)

    # The output fails at once, or breaks off: what was answered stays, and so does the money.
    for workers in WORKERS:
        folder = silo()
        with open("/dev/full", "wb") as full:
            ended = run(folder, "run", "--workers", workers, given=transfers(50), streams={"stdout": full})
        rows.row(f"a full output by {workers}", (ended.number, ended.errors, money(folder)), (5, b"silo: write fault\n", MONEY))
        before = len(objects(run(folder, "history").output))
        streams = {"stdin": subprocess.PIPE, "stdout": subprocess.PIPE, "stderr": subprocess.DEVNULL}
        with subprocess.Popen([PROGRAM, folder, "run", "--workers", workers], **streams) as broken:
            broken.stdin.write(transfers(3000))
            broken.stdin.close()
            seen = b"".join(broken.stdout.readline() for _ in range(40))
            broken.stdout.close()
            ended = broken.wait()
        rows.row(f"an output that breaks off by {workers}", (ended in (0, 5), money(folder), kept(folder, before, objects(seen))), (True, MONEY, True))

    # Memory ends under way, at a worker or elsewhere: so does the run, and what was answered stays.
    for workers in ("1", "4"):
        starved = 0
        for memory in range(4, 40, 4):
            folder = silo()
            found = run(folder, "run", "--workers", workers, given=transfers(3000), memory=memory * 1024 * 1024)
            # With too little memory the program doesn't begin at all.
            if found.number in (0, 3):
                starved += found.number == 3
                rows.row(f"{memory} MiB by {workers}", (money(folder), kept(folder, ACCOUNTS, objects(found.output))), (MONEY, True))
        rows.row(f"some runs by {workers} find no memory", starved > 0, True)

    # A load.
    load = os.path.join(room, "load")
    os.mkdir(load)
    summary = run(load, "load", "20000", "7", "--workers", "4")
    told = json.loads(summary.output)
    rows.row("a load by workers", (summary.number, told["requests"], told["total"]), (0, 20064, 64000))
    rows.row("its audit", run(load, "audit").output.endswith(b'"first_bad":null}\n'), True)

rows.end()
