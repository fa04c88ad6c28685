"""Completion for bash, and highlighting for vim."""
import os
import re
import shutil
import subprocess
import tempfile

from harness import BANK, PROGRAM, TOP, Rows, run

rows = Rows("editors")
COMPLETION = os.path.join(TOP, "tools", "completion", "silo.bash")


def completed(room, *words):
    """What bash offers for the last of these words."""
    script = 'source "$1"; shift; COMP_WORDS=("$@"); COMP_CWORD=$(($# - 1)); _silo; printf "%s\\n" "${COMPREPLY[@]}"'
    done = subprocess.run(["bash", "-c", script, "bash", COMPLETION, *words], cwd=room, env={**os.environ, "HOME": room}, capture_output=True)
    return sorted(filter(None, done.stdout.decode().split("\n")))


with tempfile.TemporaryDirectory() as room:
    for name in ("bank", "barn", "empty"):
        os.mkdir(os.path.join(room, name))
    os.symlink("bank", os.path.join(room, "two words"))
    with open(os.path.join(room, "base.txt"), "w"):
        pass
    run(os.path.join(room, "bank"), "init", given=BANK)
    for words, wanted in (
        (["./silo", "ba"], ["bank", "barn"]),
        (["./silo", "--"], ["--help"]),
        (["silo", "--"], []),
        (["silo", "bank", ""], ["audit", "check", "compact", "history", "migrate", "run", "show", "upgrade"]),
        (["silo", "bank", "h"], ["history"]),
        (["silo", "empty", ""], ["check", "init", "load"]),
        (["silo", "bank", "run", ""], ["--turns", "--width", "--workers"]),
        (["silo", "bank", "run", "--wi"], ["--width"]),
        (["silo", "bank", "run", "--width", "6"], ["64"]),
        (["silo", "empty", "load", "10", ""], []),
        (["silo", "empty", "load", "10", "7", "--w"], ["--width", "--workers"]),
        (["silo", "bank", "show", ""], []),
        (["silo", "two\\ w"], ["two words"]),
        (["silo", "two\\ words", "h"], ["history"]),
        (["silo", "~/bank", "h"], ["history"]),
    ):
        rows.row(f"completion of {' '.join(words)!r}", completed(room, *words), wanted)
    bound = subprocess.run(["bash", "-c", 'source "$1"; complete -p silo ./silo', "bash", COMPLETION], capture_output=True).stdout
    rows.row("completion is bound", bound, b"complete -F _silo silo\ncomplete -F _silo ./silo\n")
    # The words are those of the program: it takes each of them.
    for command in ("show", "history", "audit"):
        rows.row(f"the program has {command}", run(os.path.join(room, "bank"), command).number, 0)
    for option in ("--width", "--workers", "--turns"):
        rows.row(f"the program has {option}", run(os.path.join(room, "bank"), "run", option, "1").number, 0)

    # vim: what each piece of a program is shown as. The words are those of docs/LANGUAGE.md.
    program = """type a { # first
  field f = 0;
  method m(n) createorjoin update {
    set f = f + 12;
    attempt x = call b/key.get("two") { } else { return 1; }
    x += 1; // no
  }
}
"""
    path = os.path.join(room, "p.grain")
    with open(path, "w") as file:
        file.write(program)
    asks = [("type", "Declared"), ("# first", "Comment"), ("field", "Declared"), ("f = 0", "Name"), ("0;", "Number"), ("method", "Declared"),
            ("m(n)", "Name"), ("createorjoin", "Option"), ("update", "Kind"), ("set", "Statement"), ("12", "Number"), ("attempt", "Choice"),
            ("call", "Statement"), ("b/", "Callee"), ("key", "Key"), ('"two"', "Text"), ("else", "Choice"), ("+=", "Wrong"), ("// no", "Wrong")]
    wanted = []
    for piece, group in asks:
        at = program.index(piece)
        wanted.append((piece, program.count("\n", 0, at) + 1, at - program.rfind("\n", 0, at), f"grain{group}"))
    if shutil.which("vim"):
        script = os.path.join(room, "ask.vim")
        with open(script, "w") as file:
            file.write(f"set nocompatible\nlet &runtimepath = '{TOP}/tools/vim,' . &runtimepath\nfiletype plugin on\nsyntax on\nedit {path}\n")
            file.write("let found = [&filetype, &commentstring, &makeprg]\n")
            for _, line, column, _ in wanted:
                file.write(f"call add(found, synIDattr(synID({line}, {column}, 1), 'name'))\n")
            file.write("silent make\nlet mistake = getqflist()[0]\ncall add(found, mistake.lnum . ':' . mistake.col)\n")
            file.write(f"call writefile(found, '{room}/found')\nqall!\n")
        env = {**os.environ, "SILO": PROGRAM, "TERM": "dumb", "HOME": room}
        subprocess.run(["vim", "-es", "-u", "NONE", "-i", "NONE", "-S", script], env=env, stdin=subprocess.DEVNULL, capture_output=True, timeout=60)
        with open(os.path.join(room, "found")) as file:
            found = file.read().split("\n")[:-1]
        rows.row("vim knows the file", found[:2], ["grain", "# %s"])
        rows.row("vim's make", found[2].endswith("/tools/explain %:S"), True)
        for (piece, _, _, group), name in zip(wanted, found[3:]):
            rows.row(f"vim: {piece}", name, group)
        rows.row("vim goes to the mistake", found[-1], "6:7")
    else:
        print("editors: there is no vim, so highlighting isn't shown")

    # All reserved words, options and kinds of the language are in the highlighting.
    with open(os.path.join(TOP, "docs", "LANGUAGE.md")) as file:
        reserved = re.search(r"(?m)^\| reserved word \| `([^`]*)`", file.read())
    with open(os.path.join(TOP, "tools", "vim", "syntax", "grain.vim")) as file:
        syntax = file.read()
    words = [*(reserved[1].split() if reserved else []), *"create join createorjoin suppress supported notallowed read update plain".split()]
    rows.row("every word is highlighted", (bool(reserved), [word for word in words if not re.search(rf"\b{word}\b", syntax)]), (True, []))

rows.end()
