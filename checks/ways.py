#!/usr/bin/env python3
"""Counts the ways that lead down from each crate: `rt` sums up the text below a crate once for each of them, in each command.

    checks/ways.py               the crates with the most ways, and the sums
    checks/ways.py NAME ..       these crates
    checks/ways.py --check       only whether the sums are within their limits (checks/run calls it)
"""
import functools
import sys

from crate_lists import LIST, read_list

# What silo_top and all crates together may have at most: twice as many would cost each command minutes again.
MOST_OF_THE_TOP = 70_000
MOST_TOGETHER = 400_000


def main():
    with open(LIST, encoding="utf-8") as file:
        listed = read_list(file.read())
    below = {crate: [it for it in names if it in listed] for crate, names in listed.items()}

    @functools.lru_cache(None)
    def ways(crate):
        return 1 + sum(ways(it) for it in below[crate])

    together = sum(map(ways, below))
    words = sys.argv[1:]
    if words != ["--check"]:
        for crate in words or sorted(below, key=ways)[-12:]:
            print(f"{crate}: {len(below[crate])} listed, {ways(crate)} ways")
    print(f"ways: {ways('silo_top')} to silo_top, {together} of all crates together, {sum(map(len, below.values()))} listed")
    return 1 if ways("silo_top") > MOST_OF_THE_TOP or together > MOST_TOGETHER else 0


if __name__ == "__main__":
    sys.exit(main())
