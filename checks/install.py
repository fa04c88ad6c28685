"""`make install`, `make uninstall` and the Debian package: what they put where, that it works from there, and that it is taken away whole."""
import os
import shutil
import subprocess
import tempfile

from harness import BANK, PROGRAM, TOP, Rows, deposit

rows = Rows("install")


def said(*words, given=b"", **more):
    done = subprocess.run(words, input=given, capture_output=True, timeout=100, **more)
    return done.returncode, done.stdout.decode(errors="replace"), done.stderr.decode(errors="replace")


def files(top):
    return sorted(os.path.relpath(os.path.join(at, name), top) for at, _, names in os.walk(top) for name in names)


def works(what, prefix, room):
    """That what is installed there works: the program and the tools, without this repository and SILO."""
    env = {"PATH": f"{prefix}/bin:{os.environ['PATH']}", "HOME": room}
    folder = os.path.join(room, what)
    os.mkdir(folder)
    rows.row(f"{what}: init", said("silo", folder, "init", given=BANK, env=env), (0, "", ""))
    rows.row(f"{what}: run", said("silo", folder, "run", given=deposit(5), env=env), (0, '{"n":1,"reply":5,"unit":1}\n', ""))
    path = os.path.join(room, f"{what}.grain")
    with open(path, "w") as file:
        file.write("type A { }")
    rows.row(f"{what}: explain", said("silo-explain", path, env=env)[:2],
             (10, f"{path}:1:6: names have a to z, 0 to 9 and _ alone, no capitals\n  type A {{ }}\n       ^\n"))
    rows.row(f"{what}: why", said("silo-why", os.path.join(room, "none"), env=env)[0], 1)
    number, text, errors = said("silo-picture", folder, env=env)
    rows.row(f"{what}: picture", (number, text.count('class="unit"'), errors), (0, 1, ""))
    asks = f"import sys; sys.path.insert(0, '{prefix}/lib/silo/python'); import silo; print(silo.find_program(), silo.records('{folder}'))"
    rows.row(f"{what}: the module", said("python3", "-c", asks, env=env)[1], f"{prefix}/bin/silo 1\n")


DOCUMENTS = sorted(f"share/doc/silo/{name}" for name in ["README.md", "LICENSE", "CHANGELOG.md", *os.listdir(os.path.join(TOP, "docs"))])
DOCUMENTS += [f"share/doc/silo/examples/{name}/{name}.grain" for name in ("bank", "seats", "stock", "parking")]
REST = ["lib/silo/explain", "lib/silo/picture", "lib/silo/python/silo.py", "lib/silo/why", "share/bash-completion/completions/silo",
        "share/vim/vimfiles/ftdetect/grain.vim", "share/vim/vimfiles/ftplugin/grain.vim", "share/vim/vimfiles/syntax/grain.vim"]
BIN = ["bin/silo", "bin/silo-explain", "bin/silo-picture", "bin/silo-why"]

with tempfile.TemporaryDirectory() as room:
    if shutil.which("make"):
        # With DESTDIR, as packages do it, and without, as people do.
        ways = (("here", [f"PREFIX={room}/a place"], f"{room}/a place"), ("staged", [f"DESTDIR={room}/stage", "PREFIX=/usr"], f"{room}/stage/usr"))
        for what, words, prefix in ways:
            make = ["make", "-s", "-C", TOP, f"SILO={PROGRAM}", *words]
            rows.row(f"{what}: install", said(*make, "install"), (0, "", ""))
            rows.row(f"{what}: the files", files(prefix), sorted([*BIN, *REST, *DOCUMENTS, "share/man/man1/silo.1"]))
            works(what, prefix, room)
            rows.row(f"{what}: install again", said(*make, "install")[0], 0)
            rows.row(f"{what}: uninstall", said(*make, "uninstall"), (0, "", ""))
            rows.row(f"{what}: nothing is left", files(prefix), [])
        # Without a program that is named, the one of the repository is built first.
        env = {name: value for name, value in os.environ.items() if name != "SILO"}
        planned = said("make", "-n", "-C", TOP, "install", "DESTDIR=/none", env=env)[1].split("\n")
        rows.row("what is built and installed", [line for line in planned if "tools/build" in line or "bin/silo" in line][:2],
                 ["tools/build", 'install -m 755 "crates/silo/out/silo" "/none/usr/local/bin/silo"'])
    else:
        print("install: there is no make, so an install isn't shown")

    if shutil.which("make") and shutil.which("dpkg-deb"):
        # Whatever the one who makes it keeps from others.
        packs = ["sh", "-c", 'umask 077; exec "$@"', "sh", os.path.join(TOP, "tools", "package"), room]
        number, made, errors = said(*packs, env={**os.environ, "SILO": PROGRAM})
        made = made.strip()
        rows.row("package", (number, errors, os.path.dirname(made)), (0, "", room))
        rows.row("its name", said("dpkg-deb", "--field", made, "Package", "Depends", "Recommends")[1],
                 "Package: silo\nDepends: libc6 (>= 2.34)\nRecommends: python3\n")
        rows.row("its folder", said("dpkg-deb", "-x", made, os.path.join(room, "unpacked"))[0], 0)
        rows.row("the package's files", files(f"{room}/unpacked/usr"), sorted([*BIN, *REST, *DOCUMENTS, "share/man/man1/silo.1.gz"]))
        listed = {tuple(line.split()[:2]) for line in said("dpkg-deb", "-c", made)[1].splitlines()}
        modes = ("-rw-r--r--", "-rwxr-xr-x", "drwxr-xr-x", "lrwxrwxrwx")
        rows.row("whose they are, and for whom", listed, {(mode, "root/root") for mode in modes})
        works("deb", f"{room}/unpacked/usr", room)
    else:
        print("install: there is no dpkg-deb, so a package isn't shown")

rows.end()
