#!/usr/bin/env bash
# Kills real runs at random moments, and checks what they leave:
#   bench/kill.sh [ROUNDS] [LINES] [WIDTH | --workers N]
# A round runs LINES transfers over 64 accounts, which have 64,000 together, with WIDTH lines under way at a time or with N workers, kills that process, and
# reads the folder by examples/reader, which has nothing of the program's. Then: the log begins with the records that it had before,
# and goes on with the units of the whole reply lines, in their order and with their results, and maybe with others whose
# replies the kill cut off; no aborted unit has a record; and the balances make 64,000. The next round goes on over that folder.
# A killed process leaves what it has written, synced or not; what a lost sync leaves is tested over the host in memory.
top=$(cd "$(dirname "${BASH_SOURCE[0]}")/.." && pwd)
[ -n "${SILO:-}" ] || "$top/tools/build" </dev/null || exit 1
export PYTHONPATH=$top/bench
exec python3 - "$@" <<'END'
import json, os, random, signal, subprocess, sys, tempfile, time

import runs

rounds, count, *manner = runs.words("20", "2000", "8")
rounds, count, program = int(rounds), int(count), runs.PROGRAM
manner = manner if manner[0] == "--workers" else ["--width", manner[0]]
reader = os.path.join(runs.TOP, "examples", "reader", "read.py")

def fail(text):
    sys.exit(f"kill.sh: {text}")

def line(call, *args):
    return json.dumps({"args": args, "call": call}).encode() + b"\n"

def look(folder):
    """The records of the log, and the sum of all balances."""
    said = [json.loads(line) for line in subprocess.run([sys.executable, reader, folder], stdout=subprocess.PIPE, check=True).stdout.splitlines()]
    return [told for told in said if "unit" in told], sum(told["state"]["balance"] for told in said if "grain" in told)

def result_of(reply):
    return reply["reply"] if "reply" in reply else {"fault": reply["fault"]}

with tempfile.TemporaryDirectory() as room:
    folder, names = runs.new_bank(room), [os.path.join(room, name) for name in ("requests", "replies")]
    made = subprocess.run([program, folder, "run"], input=b"".join(runs.transfers(0)), stdout=subprocess.PIPE, check=True)
    if made.stdout.count(b'"reply"') != 64:
        fail("the accounts weren't made")
    records, total = look(folder)
    killed = found = cut = aborted = 0
    length = 0.0
    # The first round isn't killed, and shows how long one takes.
    for turn in range(rounds + 1):
        lines = [line("teller/0.transfer", random.randrange(64), random.randrange(64), random.randrange(1, 101)) for _ in range(count)]
        with open(names[0], "wb") as file:
            file.write(b"".join(lines))
        begun = time.monotonic()
        with open(names[0], "rb") as given, open(names[1], "wb") as replies:
            running = subprocess.Popen([program, folder, "run", *manner], stdin=given, stdout=replies)
            if turn > 0:
                time.sleep(length * random.random())
                running.kill()
            ended = running.wait()
        if turn == 0:
            length = time.monotonic() - begun
            if ended != 0:
                fail(f"the first run ended with {ended}")
        elif ended not in (0, -signal.SIGKILL):
            fail(f"round {turn} ended with {ended}")
        killed += ended == -signal.SIGKILL
        with open(names[1], "rb") as file:
            said = [json.loads(reply) for reply in file.read().split(b"\n")[:-1]]
        if ended == 0 and len(said) != count:
            fail(f"round {turn} ended with 0 and wrote {len(said)} replies")
        now, total = look(folder)
        if now[: len(records)] != records:
            fail(f"round {turn}: the log has lost records")
        added = now[len(records) :]
        logged = [reply for reply in said if "aborted" not in reply]
        for at, reply in enumerate(logged):
            if at >= len(added) or (added[at]["unit"], added[at]["line"], added[at]["result"]) != (reply["unit"], reply["n"], result_of(reply)):
                fail(f"round {turn}: {reply} was written, and the log has {added[at : at + 1]}")
        gone = {reply["unit"] for reply in said if "aborted" in reply}
        if any(record["unit"] in gone for record in added):
            fail(f"round {turn}: an aborted unit is in the log")
        if total != 64000:
            fail(f"round {turn}: the balances make {total}")
        found, cut, aborted, records = found + len(logged), cut + len(added) - len(logged), aborted + len(gone), now
    # The folder opens, and goes on behind its last unit.
    last = subprocess.run([program, folder, "run"], input=line("account/0.read"), stdout=subprocess.PIPE, check=True)
    if json.loads(last.stdout)["unit"] <= records[-1]["unit"]:
        fail(f"a unit's number was given again: {last.stdout}")
print(f"{rounds} runs with {' '.join(manner)}, {killed} of them killed: all {found} units of whole replies were found again, and {cut} whose reply was cut off; {aborted} aborted; the balances make 64000")
END
