"""What a run leaves, judged from outside: its number, its replies, the log behind those records that were there, the money, and that a
later run goes on."""
import json

from harness import BANK, line, objects, run
from shim import NO_FILE

ACCOUNTS = 4
MONEY = 1000 * ACCOUNTS

# The bank, and one who moves money by transactions of their own within his.
PROGRAM_TEXT = BANK + b"""
type mover {
  field moved = 0;

  method move(from, to, n) create plain {
    attempt x = call teller/0.transfer(from, to, n) { return x; } else { return 0; }
  }

  method count(from, to, n) create update {
    attempt x = call teller/0.transfer(from, to, n) { set moved = moved + 1; } else { }
    return moved;
  }

  # What the transfer did stays, though this fails.
  method spoil(from, to, n) create plain {
    call teller/0.transfer(from, to, n);
    fail "spoilt";
  }
}
"""


def make(folder, accounts=ACCOUNTS, text=PROGRAM_TEXT):
    """Makes a silo in this folder, with 1,000 on each account."""
    done = run(folder, "init", given=text)
    paid = run(folder, "run", given=b"".join(line(f"account/{account}.deposit", 1000) for account in range(accounts)))
    assert (done.number, paid.number, paid.output.count(b'"reply"')) == (0, 0, accounts), (done, paid)


def history(folder):
    """The lines of a folder's history, and its number."""
    told = run(folder, "history")
    return told.output.split(b"\n")[:-1], told.number


def money(folder):
    """The sum of all balances."""
    return sum(told["fields"].get("balance", 0) for told in objects(run(folder, "show").output) if "grain" in told)


def named_in(errors):
    """The file that a disk fault names."""
    head = b"silo: disk fault in "
    return errors[len(head) : -1].decode() if errors.startswith(head) and errors.endswith(b"\n") else None


def grain_file(grain):
    """The file of a grain of an account or a mover."""
    kind, key = grain.split("/")
    return f"grain-0-{['account', 'teller', 'mover'].index(kind)}-{key}.otx"


def blamed(reply):
    """The file that a reply blames for its abort or its doubt; None where it blames none."""
    if reply.get("aborted") == "vote":
        return grain_file(reply["grain"])
    return "manager-0.otx" if reply.get("aborted") == "disk" or "in_doubt" in reply else None


def wrong_number(ended, failed):
    """What is wrong with the number of a run, load or report of which calls on these files failed; `0` and `1` are the input and the
    output, `.` is the folder, and NO_FILE stands for memory. A call that was interrupted may be made again."""
    texts = {0: b"", 4: b"silo: read fault\n", 5: b"silo: write fault\n"}
    # Without memory for the text nothing is said.
    if NO_FILE in failed and ended.number == 3 and ended.errors in (b"silo: no memory\n", b""):
        return []
    allowed = {0} | ({4} if "0" in failed else set()) | ({5} if "1" in failed else set())
    if ended.number in allowed:
        return [] if ended.errors == texts[ended.number] else [f"with {ended.number} it says {ended.errors}"]
    name = named_in(ended.errors)
    if ended.number == 6 and name is not None and (name in failed or "." in failed):
        return []
    return [f"it ended with {ended.number} and said {ended.errors}, and calls failed on {sorted(failed) or 'nothing'}"]


def passed_over(ended, failed):
    """What is wrong where calls failed on these files, and weren't made again: each has to be told, by the number or by a reply."""
    if ended.number != 0:
        only = {"0": 4, "1": 5}.get("".join(failed), ended.number)
        return [] if ended.number == only else [f"it ended with {ended.number} where a call failed on {failed}"]
    told = {blamed(reply) for reply in objects(ended.output)}
    untold = {name for name in failed if name not in told and not (name == "." and told - {None})}
    return [f"nothing tells that a call failed on {sorted(untold)}"] if untold else []


def wrong_replies(ended, count, failed):
    """What is wrong with the replies of a run of so many lines."""
    wrong, replies = [], objects(ended.output)
    numbers = sorted(reply["n"] for reply in replies)
    if len(set(numbers)) != len(numbers) or not set(numbers) <= set(range(1, count + 1)):
        wrong.append(f"replies to the lines {numbers}")
    if ended.number == 0 and (len(numbers) != count or not ended.output.endswith(b"\n" * (count > 0))):
        wrong.append(f"{len(numbers)} replies to {count} lines, with 0")
    if ended.number == 0 and any("in_doubt" in reply for reply in replies):
        wrong.append("a batch is in doubt, with 0")
    for reply in replies:
        if (name := blamed(reply)) is not None and not {name, "."} & failed:
            wrong.append(f"{reply}, and calls failed on {sorted(failed) or 'nothing'}")
    return wrong


def wrong_records(replies, added, is_whole):
    """What is wrong with the records that a run of transactions alone added, beside its replies."""
    wrong, of_line = [], {record["n"]: record for record in added if "n" in record}
    said = {reply["n"]: reply for reply in replies}
    if len(of_line) != sum("n" in record for record in added):
        wrong.append("two records of one line")
    for reply in replies:
        record = of_line.get(reply["n"])
        if "reply" in reply or "fault" in reply:
            if record is None or any(record.get(key) != reply.get(key) for key in ("n", "unit", "reply", "fault")):
                wrong.append(f"{reply} beside {record}")
        elif record is not None and "in_doubt" not in reply:
            wrong.append(f"{reply} beside {record}")
    in_doubt = {reply["n"] for reply in replies if "in_doubt" in reply}
    if in_doubt & set(of_line) not in (set(), in_doubt):
        wrong.append(f"of {sorted(in_doubt)} in doubt {sorted(in_doubt & set(of_line))} are in the log")
    # Replies stand in the log's order, and those that are missing are the last ones.
    order = [reply["n"] for reply in replies if "reply" in reply or "fault" in reply]
    if list(of_line)[: len(order)] != order:
        wrong.append(f"replies in the order {order}, and records in that of {list(of_line)}")
    if is_whole and not set(of_line) <= set(said):
        wrong.append(f"records without a reply: {sorted(set(of_line) - set(said))}")
    return wrong


def judge(folder, before, lines, ended, failed=(), total=MONEY):
    """What is wrong with a folder whose history was these lines, and over which a run of these transactions and lines that are no
    request ended so, with calls failing on these files."""
    failed = set(failed)
    wrong = wrong_number(ended, failed) + wrong_replies(ended, len(lines), failed)
    now, number = history(folder)
    if number != 0 or now[: len(before)] != before:
        return [*wrong, f"the log has lost records; history ended with {number}"]
    replies, added = objects(ended.output), [json.loads(record) for record in now[len(before) :]]
    wrong += wrong_records(replies, added, ended.number == 0)
    if ended.number == 4 and (replies or added):
        wrong.append(f"without its input it answered {replies} and logged {added}")
    if (told := run(folder, "audit").output) != b'{"count":%d,"first_bad":null}\n' % len(now):
        wrong.append(f"an audit of {len(now)} records says {told}")
    if (found := money(folder)) != total:
        wrong.append(f"the balances make {found}")
    again = run(folder, "run", given=line("account/0.read") + line("teller/0.transfer", 0, 1, 0))
    if (again.number, again.output.count(b"\n"), again.output.count(b'"n":')) != (0, 2, 2):
        wrong.append(f"a later run ended so: {again}")
    if history(folder)[0][: len(now)] != now:
        wrong.append("a later run's log has lost records")
    return wrong
