#!/usr/bin/env python3
"""Runs calls on a silo of examples/bank, and says what each got and what to do:  examples/client/client.py PROGRAM FOLDER

An example of the module `silo` (tools/python/silo.py), which runs the program, sends again what may be sent again, and looks in the log for
what wasn't answered."""
import os
import sys

sys.path.insert(0, os.path.join(os.path.dirname(os.path.abspath(__file__)), "..", "..", "tools", "python"))
from silo import Aborted, Bad, Fault, InDoubt, Silo, SiloError, Unanswered  # noqa: E402

CALLS = [("account/1.deposit", [5]), ("account/1.close", []), ("teller/0.transfer", [1, 2, 7]), ("teller/0.transfer", [1, 2, 3])]


def advice(result):
    """What to do about a call that gave no value."""
    if isinstance(result, Fault) and result.text != "aborted":
        return "the program said no"
    if isinstance(result, Bad):
        return "mend the call"
    if isinstance(result, Fault) and result.again:
        return "a transaction of its own was aborted, each time: look at the disk, then send it again"
    if result.again:
        return "send it again"
    if isinstance(result, Aborted) and result.cause in ("vote", "disk"):
        return "a file failed: look at the disk, then send it again"
    if not isinstance(result, InDoubt) and result.began:
        return "look at what it began, which stays, before it is sent again: " + ", ".join(f"unit {record['unit']}" for record in result.began)
    if isinstance(result, InDoubt):
        return f'after "After a failed sync" in docs/OPERATIONS.md, look for line {result.n} in the history behind {result.before} records'
    return 'look in the history, after "After a failed sync" in docs/OPERATIONS.md'


def main(program, folder):
    with Silo(folder, program) as bank:
        before, results = bank.records(), bank.batch(CALLS)
        for (call, args), result in zip(CALLS, results):
            if isinstance(result, SiloError):
                print(f"{call}{tuple(args)}: {type(result).__name__}: {result}; {advice(result)}")
            else:
                print(f"{call}{tuple(args)}: {result}")
        print(f"records: {before} before, {bank.records()} now")
    if any(isinstance(result, (Unanswered, InDoubt)) for result in results):
        sys.exit(1)


if __name__ == "__main__":
    if len(sys.argv) != 3:
        sys.exit(__doc__)
    main(*sys.argv[1:])
