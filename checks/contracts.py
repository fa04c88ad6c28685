#!/usr/bin/env python3
"""That each contract can be read: no line of one is longer than 160 characters, and all clauses of a function together are no longer than 1,200.

    checks/contracts.py            looks whether it is so (checks/run calls it)
    checks/contracts.py CRATE ..   prints the ten longest contracts of these crates, each with its characters and its place

Characters are those of the clauses, blanks in a row as one, without comments and without the signature. Crates of tests and the
examples of the promise, whose clauses are the examples themselves, aren't looked at.
"""
import os
import re
import sys

from harness import Rows
from places import CRATES, crates, files_of

LINE = 160
CONTRACT = 1_200

# Longer ones: a law that is a table, of which a clause is a row.
LONGER = {
    "promise_spec": ["words_are_read"],
}

HEAD = re.compile(r"^[ \t]*(?:pub(?:\([a-z]+\))? )?(?:const )?(?:unsafe )?fn (\w+)", re.M)
CLAUSE = re.compile(r"^[ \t]*(?:requires|ensures)\b", re.M)


def without_comments(text):
    """The text with its comments made blank, so that each line stays where it is."""
    return re.sub(r"^([^\n\"]*?)//[^\n]*", r"\1", text, flags=re.M)


def clause_end(text, start):
    """Where the clause that begins here ends: at the brace that closes it. Braces in texts don't count."""
    depth = 0
    for part in re.finditer(r'"[^"\n]*"|[{}]', text[start:]):
        depth += {"{": 1, "}": -1}.get(part[0], 0)
        if depth == 0:
            return start + part.end()
    raise ValueError(text[start:start + 80])


def contracts(path):
    """Each function of a file that has clauses, with its line, and the clauses as they stand."""
    with open(os.path.join(CRATES, path), encoding="utf-8") as file:
        text = without_comments(file.read())
    for head in HEAD.finditer(text):
        following = HEAD.search(text, head.end())
        last = following.start() if following else len(text)
        clauses, at = [], head.end()
        while (clause := CLAUSE.search(text, at, last)) and not re.search(r"^[ \t]*\{\}?[ \t]*$", text[at:clause.start()], re.M):
            at = clause_end(text, clause.start())
            clauses.append(text[clause.start():at])
        if clauses:
            yield head[1], text.count("\n", 0, head.start()) + 1, clauses


def size(clauses):
    """How many characters the clauses have."""
    return sum(len(" ".join(clause.split())) for clause in clauses)


def functions(crate):
    """Each function of a crate that has a contract: its name, its place, and the clauses."""
    for path in files_of(crate, "src"):
        for name, line, clauses in contracts(path):
            yield name, f"{path}:{line}", clauses


def check():
    rows = Rows("contracts")
    for crate in crates():
        if crate == "promise_examples":
            continue
        longer, found = LONGER.get(crate, []), set()
        for name, place, clauses in functions(crate):
            longest = max(len(line) for clause in clauses for line in clause.strip("\n").split("\n"))
            rows.row(f"{place}: a line of the contract of {name} has {longest} characters", longest <= LINE, True)
            if name in longer and size(clauses) > CONTRACT:
                found.add(name)
            else:
                rows.row(f"{place}: the contract of {name} has {size(clauses):,} characters", size(clauses) <= CONTRACT, True)
        rows.row(f"exceptions that {crate} doesn't need", set(longer) - found, set())
    rows.end()


def tell(crate):
    found = sorted(((size(clauses), name, place) for name, place, clauses in functions(crate)), reverse=True)
    for characters, name, place in found[:10]:
        print(f"{characters:6,} {name} {place}")


if __name__ == "__main__":
    if sys.argv[1:]:
        for named in sys.argv[1:]:
            tell(named)
    else:
        check()
