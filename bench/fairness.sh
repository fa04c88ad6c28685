#!/usr/bin/env bash
# Says how many lines are aborted, and how late replies come, where units want the same grain:  bench/fairness.sh [ROUNDS] [PLACE]
# Three cases, each in a new silo in a folder at PLACE (/dev/shm, where syncs cost nothing), ROUNDS times (3), of which the worst counts:
#   hold    500 updates that hold one grain for 400 steps each, at width 16 and by 2 workers
#   hot     20,000 deposits on one grain by 16 workers
#   writer  20,000 reads of one grain for 200 steps each by 16 workers, and each 1,000th line writes it
# A reply is as late as there are more replies before it than lines before its own.
# Fails where a line has not its one reply, an abort is of another cause than a lock, the grain's state isn't what the replies say, or
# a case has more than 5 % of its lines aborted or a reply that is more than 2,000 places late.
top=$(cd "$(dirname "${BASH_SOURCE[0]}")/.." && pwd)
[ -n "${SILO:-}" ] || "$top/tools/build" </dev/null || exit 1
exec python3 - "${SILO:-$top/crates/silo/out/silo}" "${1:-3}" "${2:-/dev/shm}" <<'END'
import json, os, subprocess, sys, tempfile, time

program, rounds, place = sys.argv[1], int(sys.argv[2]), sys.argv[3]
MOST_ABORTED, MOST_LATE = 5.0, 2000

TEXT = b"""
type counter {
  field count = 0;
  method hold(n) create update { let i = 0; while i < n { i = i + 1; } set count = count + 1; return count; }
  method add() create update { set count = count + 1; return count; }
  method look(n) create read { let i = 0; while i < n { i = i + 1; } return count; }
}
"""

def fail(text):
    sys.exit(f"fairness.sh: {text}")

def line(method, *args):
    return json.dumps({"args": args, "call": f"counter/0.{method}"}).encode() + b"\n"

# Each turn of the loop takes two steps, for its test and its statement.
HOLD = [line("hold", 199)] * 500
HOT = [line("add")] * 20_000
WRITER = [line("add") if at % 1000 == 999 else line("look", 99) for at in range(20_000)]
CASES = [
    ("hold", HOLD, ["--width", "16"]),
    ("hold", HOLD, ["--workers", "2"]),
    ("hot", HOT, ["--workers", "16"]),
    ("writer", WRITER, ["--workers", "16"]),
]

def carried(name, lines, words):
    """The share of lines that were aborted, in percent; the greatest lateness, its line's number; and the seconds."""
    with tempfile.TemporaryDirectory(dir=place) as room:
        folder = os.path.join(room, "silo")
        os.mkdir(folder)
        subprocess.run([program, folder, "init"], input=TEXT, check=True)
        begun = time.monotonic()
        ran = subprocess.run([program, folder, "run", *words], input=b"".join(lines), stdout=subprocess.PIPE)
        took = time.monotonic() - begun
        if ran.returncode != 0:
            fail(f"{name} {' '.join(words)} ended with {ran.returncode}")
        replies = [json.loads(reply) for reply in ran.stdout.split(b"\n")[:-1]]
        if sorted(reply["n"] for reply in replies) != list(range(1, len(lines) + 1)):
            fail(f"{name} {' '.join(words)} left a line without its one reply")
        aborted = [reply for reply in replies if "reply" not in reply]
        if any(reply.get("aborted") != "lock" for reply in aborted):
            fail(f"{name} {' '.join(words)} has an abort that no lock caused")
        shown = json.loads(subprocess.run([program, folder, "show"], stdout=subprocess.PIPE, check=True).stdout.split(b"\n")[0])
        added = sum("reply" in reply and b"look" not in lines[reply["n"] - 1] for reply in replies)
        if shown.get("fields", {"count": 0})["count"] != added:
            fail(f"{name} {' '.join(words)} answered {added} updates, and the folder says {shown}")
        late, number = max((place - reply["n"], reply["n"]) for place, reply in enumerate(replies, 1))
        return 100 * len(aborted) / len(lines), late, number, took

missed = 0
for name, lines, words in CASES:
    found = [carried(name, lines, words) for _ in range(rounds)]
    aborted, late = max(one[0] for one in found), max(one[1] for one in found)
    number = max((one[1], one[2]) for one in found)[1]
    good = aborted <= MOST_ABORTED and late <= MOST_LATE
    missed += not good
    print(f"{name}, {' '.join(words)}: {aborted:.1f} % aborted, line {number} is {late} places late, {max(one[3] for one in found):.2f} s"
          + ("" if good else "  (too many, or too late)"))
sys.exit(missed > 0)
END
