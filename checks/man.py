"""The man page that is made of the documents: its parts, each command and each number, and that groff takes it without a warning."""
import os
import re
import shutil
import subprocess
import sys
import tempfile

from harness import TOP, Rows

rows = Rows("man")
MAN = os.path.join("tools", "man")


def man(top):
    done = subprocess.run([sys.executable, os.path.join(top, MAN)], capture_output=True)
    return done.returncode, done.stdout.decode(), done.stderr.decode()


number, page, errors = man(TOP)
rows.row("how it ends", (number, errors), (0, ""))
heads = ["NAME", "SYNOPSIS", "DESCRIPTION", "COMMANDS", "EXIT STATUS AND REPLIES", "AFTER A FAILED SYNC", "LIMITS", "SEE ALSO"]
rows.row("parts", re.findall(r"(?m)^\.SH (.*)$", page), heads)
parts = dict(zip(heads, re.split(r"(?m)^\.SH .*\n", page)[1:]))
tags = {head: [re.sub(r"\\f.|\\&", "", tag) for tag in re.findall(r"(?m)^\.TP\n(.*)$", part)] for head, part in parts.items()}
commands = " ".join(tags["COMMANDS"])
rows.row("commands", [word for word in ("init", "run", "show", "history", "audit", "compact", "upgrade", "migrate", "load")
                        if not re.search(rf"\b{word}\b", commands)], [])
with open(os.path.join(TOP, "docs", "OPERATIONS.md")) as file:
    operations = file.read()
numbers = re.findall(r"(?m)^\| (\d+)\b", operations)
rows.row("numbers", [tag for tag in numbers if not any(re.match(rf"{tag}\b", it) for it in tags["EXIT STATUS AND REPLIES"])], [])
rows.row("how many numbers", len(numbers) >= 11, True)
rows.row("replies", [tag for tag in ("reply", "fault", "aborted", "in_doubt", "bad") if tag not in tags["EXIT STATUS AND REPLIES"]], [])

# What groff says of it, and what it shows.
if shutil.which("groff"):
    done = subprocess.run(["groff", "-man", "-Tutf8", "-ww"], input=page.encode(), capture_output=True)
    shown = re.sub(r"\x1b\[[0-9;]*m|.\x08", "", done.stdout.decode())
    rows.row("groff", (done.returncode, done.stderr), (0, b""))
    rows.row("what is shown", ("silo FOLDER run [--width W | --workers K] < REQUESTS" in shown, "`" in shown, "**" in shown, "\\f" in shown),
         (True, False, False, False))
else:
    print("man: there is no groff, so the page isn't shown")

# A heading that isn't there is told.
with tempfile.TemporaryDirectory() as room:
    for name in (MAN, "README.md", os.path.join("docs", "OPERATIONS.md")):
        os.makedirs(os.path.dirname(os.path.join(room, name)), exist_ok=True)
        shutil.copy(os.path.join(TOP, name), os.path.join(room, name))
    with open(os.path.join(room, "docs", "OPERATIONS.md"), "w") as file:
        file.write(operations.replace("## Limits and sizes", "## Sizes"))
    rows.row("a heading that is gone", man(room), (1, "", "man: docs/OPERATIONS.md has no heading: ## Limits and sizes\n"))

rows.end()
