#!/usr/bin/env python3
"""What each crate's line in crates.txt lists is what the crate's own files name, and nothing else.

    checks/crate_lists.py [--check]  looks whether it is so (checks/run calls it)
    checks/crate_lists.py --write    writes the lists anew from the sources

A file names a library by `Rattle.NAME.` in a contract, a specification or a proof, and by `NAME::` or `use NAME` in code.
What no file names costs time: each command of `rt` sums up the text below a crate once for each way that leads down.
"""
import os
import re
import sys

from harness import TOP

LIST = f"{TOP}/crates.txt"


def parts_of(line):
    """The crate of a line with its counts, and what it lists; None where the line names no crate."""
    body = line.partition("#")[0].strip()
    if not body:
        return None
    head, _, listed = body.partition(":")
    return head, listed.split()


def read_list(text):
    """What each crate lists, in the order of the file."""
    parts = [parts_of(line) for line in text.split("\n")]
    return {head.split()[0]: listed for head, listed in filter(None, parts)}


def sources(crate):
    for part in ("src", "specs", "proofs"):
        for folder, _, names in os.walk(f"{TOP}/crates/{crate}/{part}"):
            for name in names:
                if name.endswith((".rt", ".antt")):
                    with open(f"{folder}/{name}", encoding="utf-8") as file:
                        yield name, file.read()


def plain(text):
    """A file of code without its comments."""
    return re.sub(r"//[^\n]*", "", text)


def named_in_code(text):
    """The heads of the paths of a file of code, but for its own modules and what a `use` of std brings."""
    text = plain(text)
    heads = set(re.findall(r"(?<![\w.:])(\w+)\s*::", text))
    heads |= set(re.findall(r"\buse\s+(\w+)\s*(?:;|as\b)", text))
    own = set(re.findall(r"\bmod\s+(\w+)", text))
    brought = set(re.findall(r"\buse\s+std::(?:\w+::)*(\w+);", text))
    return (heads - own - brought) | set(re.findall(r"\bRattle\.(\w+)\.", text))


def used_in_code(texts):
    """The heads of the `use` items of a crate's code, but for its own modules, its own paths and std."""
    texts = [plain(text) for text in texts]
    heads = {it for text in texts for it in re.findall(r"(?m)^\s*(?:pub(?:\([^)]*\))?\s+)?use\s+([a-z_0-9]+)::", text)}
    own = {it for text in texts for it in re.findall(r"\bmod\s+(\w+)", text)}
    return heads - own - {"crate", "self", "super", "std", "core"}


def named_in_proofs(text):
    text = re.sub(r"(?m)(^|\s)--(\s[^\n]*|$)", "", text)
    return set(re.findall(r"\bRattle\.(\w+)\b", text))


def names_of(crate, known):
    """The libraries that the files of a crate name, the repository's first, in the order of the list."""
    named, code = set(), []
    for name, text in sources(crate):
        if name.endswith(".rt"):
            named |= named_in_code(text)
            code.append(text)
        else:
            named |= named_in_proofs(text)
    named -= {crate, "std"}
    own = [it for it in known if it in named]
    return own + sorted((named & kit_names(known) | used_in_code(code)) - set(known))


def kit_names(known):
    """The kit's libraries that some line lists. Another one is found where a `use` names it: `io::` or `log::` may be a module's."""
    return {it for listed in known.values() for it in listed} - set(known)


def made_anew(text):
    known = read_list(text)
    lines = []
    for line in text.split("\n"):
        parts = parts_of(line)
        if parts:
            head = parts[0]
            line = f"{head}: {' '.join(names_of(head.split()[0], known))}".rstrip()
        lines.append(line)
    return "\n".join(lines)


def main(words):
    if words not in ([], ["--check"], ["--write"]):
        sys.exit(__doc__)
    with open(LIST, encoding="utf-8") as file:
        text = file.read()
    made = made_anew(text)
    if words == ["--write"]:
        with open(LIST, "w", encoding="utf-8") as file:
            file.write(made)
        return 0
    differ = [(old, new) for old, new in zip(text.split("\n"), made.split("\n")) if old != new]
    for old, new in differ:
        print(f"crates.txt has   {old}\nthe files name   {new}")
    print(f"crate lists: {len(read_list(text))} lines, {len(differ)} that differ from what the files name")
    return 1 if differ else 0


if __name__ == "__main__":
    sys.exit(main(sys.argv[1:]))
