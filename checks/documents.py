"""The documents: each command that they show prints what stands beneath it, and what they name is there.

In README.md, docs/ and the examples a block that begins with ```console is run, document by document, in a folder of its own that has
`silo`, `examples` and `tools` in it: a line behind `$ ` is a command, the lines beneath it are all that it prints. A block that begins
with ```file NAME is written to that file first. Where the last cell of a table's row is a command, that is run too, and has to end with
0. Then all documents are run once more in one folder, in the order in which a reader meets them. Links, paths and headings that a
document names have to be there.

README.md has at most 1,500 words. Where crates are listed they stand in the groups and the order of crates.txt, and none is left
out. In docs/WORDS.md each word stands in the file that its row names.
"""
import glob
import os
import re
import shutil
import subprocess
import tempfile

from harness import PROGRAM, TOP, Rows, stand_in

rows = Rows("documents")
MOST_WORDS = 1500
FIRST = ["README.md", "docs/TUTORIAL.md", "docs/LANGUAGE.md", "docs/PATTERNS.md", "docs/OPERATIONS.md"]
FOUND = glob.glob(os.path.join(TOP, "docs", "*.md")) + glob.glob(os.path.join(TOP, "examples", "*", "README.md"))
OTHERS = sorted(os.path.relpath(path, TOP) for path in FOUND)
# In the order in which a reader meets them.
DOCUMENTS = FIRST + [name for name in OTHERS if name not in FIRST]
FOLDERS = ("docs", "examples", "bench", "checks", "crates", "tools", ".ci")


def blocks(text):
    """The fenced blocks of a document: what stands behind the fence, and the lines; and each command in a table, as a row."""
    kind, lines = None, []
    for line in text.split("\n"):
        if line.startswith("```"):
            if kind is None:
                kind, lines = line[3:].strip(), []
            else:
                yield kind, lines
                kind = None
        elif kind is not None:
            lines.append(line)
        elif shown := re.fullmatch(r"\|.*\| `((?:\./silo|mkdir) [^`]*)` \|", line):
            yield "row", [shown[1]]


def commands(lines):
    """The commands of a console block, each with what it is to print."""
    shown = []
    for line in lines:
        if line.startswith("$ "):
            shown.append([line[2:], []])
        elif shown and shown[-1][0].endswith("\\"):
            shown[-1][0] += "\n" + line
        elif shown:
            shown[-1][1].append(line)
    return [(command, "".join(line + "\n" for line in printed)) for command, printed in shown]


def furnish(room):
    """Gives a folder what the top of the repository has for its documents."""
    stand_in(room, "silo", f'exec "{PROGRAM}" "$@"')
    for folder in ("examples", "tools"):
        if os.path.isdir(os.path.join(TOP, folder)):
            shutil.copytree(os.path.join(TOP, folder), os.path.join(room, folder))


def shows(name, text, room):
    """Runs what a document shows."""
    for kind, lines in blocks(text):
        if kind.startswith("file "):
            path = os.path.join(room, kind[5:].strip())
            os.makedirs(os.path.dirname(path), exist_ok=True)
            with open(path, "w") as file:
                file.write("\n".join(lines) + "\n")
        if kind == "row":
            done = subprocess.run(["bash", "-c", lines[0]], cwd=room, stdin=subprocess.DEVNULL, stdout=subprocess.DEVNULL, timeout=100)
            rows.row(f"{name}: {lines[0]}", done.returncode, 0)
        if kind != "console":
            continue
        for command, printed in commands(lines):
            done = subprocess.run(["bash", "-c", command], cwd=room, stdin=subprocess.DEVNULL, stdout=subprocess.PIPE, stderr=subprocess.STDOUT, timeout=100)
            rows.row(f"{name}: {command}", done.stdout.decode(), printed)


def named(name, text):
    """The links and paths that a document names."""
    base = os.path.dirname(os.path.join(TOP, name))
    outside = re.sub(r"(?ms)^```.*?^```", "", text)
    for target in re.findall(r"\]\(([^)#\s]+)(?:#[^)]*)?\)", outside):
        if "://" not in target:
            yield target, os.path.join(base, target)
    for target in re.findall(r"`([\w.-]+(?:/[\w.-]+)+)/?`", outside):
        parts = target.split("/")
        if parts[0] in FOLDERS and "out" not in parts:
            yield target, os.path.join(TOP, target)
        elif parts[0] in CRATES and parts[1] in ("src", "specs", "proofs"):
            yield target, os.path.join(TOP, "crates", target)


def groups():
    """The groups of crates.txt: each heading, and its crates."""
    found, before = [], "the first lines say what the file is"
    with open(os.path.join(TOP, "crates.txt")) as file:
        for line in file.read().splitlines():
            if line.startswith("# ") and not before:
                found.append((line[2:], []))
            elif ":" in line and not line.startswith("#"):
                found[-1][1].append(line.split(":")[0].split()[0])
            before = line.strip()
    return found


def lists_crates(texts):
    """The lists of crates: README's groups, ARCHITECTURE's list and table, PROVED's tables."""
    short = [re.split("[:,]", heading)[0] for heading, _ in GROUPS]
    listed = re.search(r"(?ms)^By the groups of `crates.txt`.*?\n\n(.*?)\n\n", texts["README.md"])[1]
    rows.row("README.md: the groups of crates.txt", re.findall(r"\*\*(.*?)\*\*", listed), short)

    architecture = texts["docs/ARCHITECTURE.md"]
    listed = re.search(r"(?ms)^## The crates\n.*?^```\n(.*?)^```", architecture)[1]
    wanted = [line for heading, crates in GROUPS for line in (f"# {heading}", *crates)]
    found = [line if line.startswith("# ") else line.split()[0] for line in listed.splitlines() if line]
    rows.row("ARCHITECTURE.md: the list of crates", found, wanted)
    table = re.search(r"(?ms)^\| Crate \| Knows .*?\n\n", architecture)[0]
    found = [name for cell in re.findall(r"(?m)^\| (`.*?) \|", table) for name in re.findall(r"`(\w+)`", cell)]
    order = [name for _, crates in GROUPS for name in crates]
    rows.row("ARCHITECTURE.md: what crates know", found, [name for name in order if name in found])

    sections = re.findall(r"(?ms)^### (.*?)\n\n\| Crate \| What is proved.*?\n\|---\|---\|\n(.*?)\n\n", texts["docs/PROVED.md"])
    found = [(heading, [name for cell in re.findall(r"(?m)^\| (`.*?) \|", body) for name in re.findall(r"`(\w+)`", cell)]) for heading, body in sections]
    rows.row("PROVED.md: its tables of crates", [heading for heading, _ in found], [heading for heading, _ in GROUPS])
    for (heading, crates), (_, wanted) in zip(found, GROUPS):
        rows.row(f"PROVED.md: {heading}", crates, wanted)


def words_stand(text):
    """Each row of WORDS.md: its first words stand in the file that it names."""
    rows.row("WORDS.md: each row names a file", len(re.findall(r"(?m)^\| .*\| `.+?` \|$", text)), len(re.findall(r"(?m)^\| ", text)) - 1)
    for words, path in re.findall(r"(?m)^\| (.+?) \| .+? \| `(.+?)` \|$", text):
        parts = path.split("/")
        with open(os.path.join(TOP, path) if parts[0] in FOLDERS else os.path.join(TOP, "crates", path)) as file:
            where = file.read().lower()
        for word in re.findall(r"\w[\w ]*", words.split(",")[0].replace("`", "").replace("option ", "")):
            rows.row(f"WORDS.md: {word} in {path}", word.lower().split(" of ")[0].split(" by ")[0] in where, True)


def sections(text):
    """The parts of documents that a document names, as pairs: a document, and a heading of it."""
    document, heading = r"`((?:docs/)?[A-Z-]+\.md)`", r'"([A-Z][^"]*)"'
    yield from re.findall(rf"{document}, {heading}", text)
    for found in re.finditer(rf'("[A-Z][^"]*"(?: and "[A-Z][^"]*")*) in {document}', text):
        yield from ((found[2], name) for name in re.findall(heading, found[1]))


CRATES = set(os.listdir(os.path.join(TOP, "crates")))
GROUPS = groups()
TEXTS = {}
for name in DOCUMENTS:
    with open(os.path.join(TOP, name)) as file:
        TEXTS[name] = file.read()
for name, text in TEXTS.items():
    with tempfile.TemporaryDirectory() as room:
        furnish(room)
        shows(name, text, room)
    for target, place in named(name, text):
        rows.row(f"{name} names {target}", os.path.exists(place), True)
    for document, heading in sections(text):
        rows.row(f"{name} names {heading} of {document}", bool(re.search(rf"(?m)^#+ {re.escape(heading)}$", TEXTS.get(document, ""))), True)
with tempfile.TemporaryDirectory() as room:
    furnish(room)
    for name, text in TEXTS.items():
        shows(f"one room: {name}", text, room)
rows.row(f"README.md: words, {MOST_WORDS} at most", max(len(TEXTS["README.md"].split()), MOST_WORDS), MOST_WORDS)
lists_crates(TEXTS)
words_stand(TEXTS["docs/WORDS.md"])

rows.end()
