"""The library that has a program's calls on files fail, and that moves files while it runs (`checks/faults.c`)."""
import collections
import os
import shutil
import subprocess

from harness import TOP


# The name of what isn't on a file.
NO_FILE = "?"

Noted = collections.namedtuple("Noted", "kind name done")


def build(room):
    """Builds the library in this folder: its path, or None where there is no C compiler, or the library can't be built or loaded."""
    compiler, library = shutil.which("cc"), os.path.join(room, "faults.so")
    if compiler is None:
        return None
    made = subprocess.run([compiler, "-shared", "-fPIC", "-O1", "-o", library, os.path.join(TOP, "checks", "faults.c"), "-ldl", "-lpthread"])
    if made.returncode != 0:
        return None
    # A library that can't be loaded is only told of on standard error.
    tried = subprocess.run(["/bin/sh", "-c", ":"], env={**os.environ, "LD_PRELOAD": library, "LD_BIND_NOW": "1"}, stderr=subprocess.PIPE)
    if tried.returncode != 0 or tried.stderr:
        return None
    # Another user may have to load it.
    os.chmod(library, 0o755)
    return library


def words(library, **settings):
    """The words of the environment by which a program gets the library with these settings: `at=3` is SHIM_AT, and so on."""
    return {"LD_PRELOAD": library, **{f"SHIM_{name.upper()}": str(value) for name, value in settings.items() if value is not None}}


def notes(path):
    """The calls that were noted in a file: kinds, names, and what was done."""
    try:
        with open(path, encoding="utf-8") as file:
            return [Noted(*line.split()) for line in file]
    except FileNotFoundError:
        return []
