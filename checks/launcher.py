"""The launcher and the build that it starts, over a small repository with stand-ins for `rt` and the program: when it builds, what it says
meanwhile, what it shows where a build fails, and the hints behind a number, on a terminal and elsewhere."""
import os
import pty
import re
import shutil
import signal
import subprocess
import tempfile
import time

from harness import TOP, Rows, comes

rows = Rows("launcher")

# It says what it was asked, and does it: `all check` writes what rt writes of two libraries, and `run` makes a program that says its words
# and its input.
RT = r"""#!/bin/bash
[ "$1" != version ] || { echo "a-kit logic 01ab"; exit; }
echo "$PWD $*" >>"$ASKED"
sleep "${PAUSE:-0}"
if [ "$1" = all ]; then
  printf '== low\nfn low::f: proved\nlogic=proved tests=0\n'
  sleep "${PAUSE:-0}"
  [ -z "$FAILS" ] || { printf '== high\n'; seq 100; echo "fn high::f: not proved"; printf '== other\nlogic=proved\n== summary\nhigh: failed (1)\n'; exit 1; }
  printf '== high\n== silo\nlogic=proved\n== summary\n4 of 4 crates ok\n'
  exit
fi
mkdir -p out
cat >out/silo <<'PROGRAM'
#!/bin/bash
echo "words $*"
cat
echo "silo: text" >&2
exit "${NUMBER:-0}"
PROGRAM
"""

# A kit's rt in Python, with what tools/prove uses of it: a sum goes down to each crate along every way, and what is begun and ended is told.
# A library that is made has the text of its crate. By WAITS the check of a crate ends once a line that begins so is told.
PYTHON_RT = r"""#!/usr/bin/env python3
import os, sys, time, types
rtlib = types.ModuleType("rtlib")
sys.modules["rtlib"] = rtlib
TOP = os.path.dirname(os.path.dirname(os.getcwd()))
READ = []

WAITS = dict(pair.split(":") for pair in os.environ.get("WAITS", "").split(",") if pair)

def say(text):
    with open(os.environ["ASKED"], "a") as file:
        file.write(text + "\n")

def is_said(words):
    with open(os.environ["ASKED"]) as file:
        return any(line.startswith(words) for line in file)

def root_above(folder):
    return TOP

def lock(crates):
    say("lock " + " ".join(crate.name for crate in crates))
    return []

def guarded():
    pass

def stop_on_links(folder):
    pass

def files_of(folder):
    return [folder + "/src/lib.rt"]

def help_of(verb):
    return verb + os.environ.get("HELP", " --statements --backend")

class Crate:
    def __init__(self, folder, root, known):
        with open(root + "/crates.txt") as file:
            uses = dict(line.split("#")[0].split(":") for line in file if ":" in line)
        self.folder, self.name = folder, os.path.basename(folder)
        self.is_program = self.name == "silo"
        self.rlib = folder + "/out/rlib/" + self.name + ".rlib"
        known[self.name] = self
        self.deps = [known.get(name) or Crate(root + "/crates/" + name, root, known) for name in uses[self.name].split()]

    def below(self):
        found = []
        for dep in self.deps:
            found += [it for it in [*dep.below(), dep] if it not in found]
        return found

    def text(self):
        with open(files_of(self.folder)[0]) as file:
            return file.read()

    def stamp(self):
        READ.append(self.name)
        return "(" + self.name + (self.text() if os.environ.get("TEXT") else "") + "".join(dep.stamp() for dep in self.deps) + ")"

    def words(self, flags, keeps=True):
        return [*flags, *(dep.name + "=" + os.path.relpath(dep.rlib, TOP) for dep in self.deps), *["KEEPS"] * keeps]

    def call(self, *words):
        at = words.index("-o")
        say("begin " + self.name + " " + " ".join([*words[:at], os.path.relpath(os.path.join(self.folder, words[at + 1]), TOP)]))
        while self.name in WAITS and not is_said(WAITS[self.name]):
            time.sleep(0.02)
        say("end " + self.name)
        if self.name == os.environ.get("KILLED"):
            del os.environ["KILLED"]
            return -9
        if self.name == os.environ.get("EDITED"):
            with open(files_of(self.folder)[0], "a") as file:
                file.write("// meanwhile")
        if self.name == os.environ.get("FAILS"):
            return 1
        if not self.is_program:
            os.makedirs(words[at + 1])
            with open(words[at + 1] + "/format", "w") as file:
                file.write(self.text())
        print("logic=proved", file=self.out)
        return 0

    def compile(self, flags, to, tests=False):
        say("rt compiles it")
        return 1

    def run(self, flags, arguments):
        status = self.compile(flags, "out/silo.o", False)
        if status:
            return status
        READ.clear()
        first, second = self.stamp(), self.stamp()
        say(" ".join([first, str(first == second), str(len(READ))]))
        os.makedirs("out", exist_ok=True)
        with open("out/silo", "w") as file:
            file.write("#!/bin/sh\n")
        return 2

rtlib.KIT, rtlib.RATTLE = "/kit", "rattle"
for it in (root_above, lock, guarded, stop_on_links, files_of, help_of, Crate):
    setattr(rtlib, it.__name__, it)
if os.environ.get("LACKS"):
    delattr(Crate, os.environ["LACKS"])

if __name__ == "__main__":
    say("as it is: " + " ".join(sys.argv[1:]))
"""


def file(path, text, mode=0o644):
    os.makedirs(os.path.dirname(path), exist_ok=True)
    with open(path, "w") as it:
        it.write(text)
    os.chmod(path, mode)


def repository(room, rt=RT):
    """A repository of four crates, with the launcher and the build of this one."""
    top = os.path.join(room, "top")
    for name in ("low", "high", "other", "silo"):
        file(f"{top}/crates/{name}/src/lib.rt", f"// {name}\n" * 100)
    file(f"{top}/crates.txt", "# crates\nlow:\nhigh may_wait=1: low std\nother: low\nsilo: low high other # all\nbeside: low\n")
    shutil.copy(os.path.join(TOP, "silo"), f"{top}/silo")
    os.makedirs(f"{top}/tools")
    for tool in ("build", "prove"):
        shutil.copy(os.path.join(TOP, "tools", tool), f"{top}/tools/{tool}")
    file(f"{room}/bin/rt", rt, 0o755)
    return top


def environment(room, **more):
    path = f"{room}/bin:{os.environ['PATH']}"
    return {**os.environ, "PATH": path, "ASKED": f"{room}/asked", "SILO_PLAIN_RT": "", **more}


def launch(room, *words, given=b"", **more):
    """How the launcher ended, without a terminal."""
    done = subprocess.run(["./silo", *words], cwd=f"{room}/top", env=environment(room, **more), input=given, capture_output=True, timeout=60)
    return done.returncode, done.stdout.decode(), done.stderr.decode()


def on_terminal(room, *words, given=None, **more):
    """How it ended where standard error is a terminal: the number, and what that shows."""
    ours, theirs = pty.openpty()
    with open(given or os.devnull, "rb") as stdin:
        started = subprocess.Popen(["./silo", *words], cwd=f"{room}/top", env=environment(room, **more), stdin=stdin, stdout=subprocess.DEVNULL, stderr=theirs)
    os.close(theirs)
    shown = b""
    while True:
        try:
            read = os.read(ours, 4096)
        except OSError:
            break
        if not read:
            break
        shown += read
    os.close(ours)
    return started.wait(timeout=60), shown.decode().replace("\r\n", "\n")


def within(folder):
    """The processes whose current folder is in this one."""
    found = []
    for name in filter(str.isdigit, os.listdir("/proc")):
        try:
            found += [name] * os.readlink(f"/proc/{name}/cwd").startswith(folder)
        except OSError:
            pass
    return found


def background(room, *words, how=None, **more):
    """A process beside this one, without an input."""
    streams = {"stdin": subprocess.DEVNULL, "stdout": subprocess.PIPE, "stderr": subprocess.PIPE}
    return subprocess.Popen(words, cwd=f"{room}/top", env=environment(room, **more), **streams, **(how or {}))


def started(room, *words, how=None, **more):
    """A build that is under way: what it started has asked rt something."""
    one = background(room, *words, how=how, **more)
    assert comes(lambda: asked(room)), words
    return one


def asked(room):
    """How often rt was asked."""
    if not os.path.exists(f"{room}/asked"):
        return 0
    with open(f"{room}/asked") as it:
        return len(it.readlines())


with tempfile.TemporaryDirectory() as room:
    top = repository(room)
    number, output, errors = launch(room, "--help")
    rows.row("--help", (number, output.startswith("usage: silo FOLDER COMMAND\n"), errors, asked(room)), (0, True, "", 0))
    for command in ("init", "run", "show", "history", "audit", "load"):
        rows.row(f"--help has {command}", bool(re.search(rf"(?m)^  {command}\b", output)), True)

    log = f"{top}/out/build.log"
    number, output, errors = launch(room, "bank", "run", given=b"line\n")
    says = re.fullmatch(rf"silo: proving 4 crates, (\d+) at a time, and building the program; the log is {log}\nsilo: text\n", errors)
    rows.row("a first run builds", (number, output, bool(says)), (0, "words bank run\nline\n", True))
    with open(f"{room}/asked") as it:
        rows.row("what rt is asked", it.read(), f"{top}/crates/silo all check --jobs {says[1] if says else ''}\n{top}/crates/silo run\n")
    rows.row("a second one doesn't", launch(room, "bank", "show"), (0, "words bank show\n", "silo: text\n"))
    rows.row("numbers are the program's", launch(room, "bank", NUMBER="9"), (9, "words bank\n", "silo: text\n"))
    rows.row("rt was asked once", asked(room), 2)
    later = time.time() + 5
    os.utime(f"{top}/crates/low/src/lib.rt", (later, later))
    launch(room)
    rows.row("a source that changed is built", asked(room), 4)

    # Hints come where standard error is a terminal, and nowhere else.
    os.utime(f"{top}/crates/silo/out/silo", (later + 1, later + 1))
    file(f"{room}/p.grain", "type")
    hints = {
        "0": "",
        "2": "silo: hint: ./silo --help prints the commands\n",
        "5": "",
        "6": 'silo: hint: ./tools/why bank says what may be in the way; where lines were carried, docs/OPERATIONS.md, "After a failed sync", comes first\n',
        "7": "silo: hint: ./tools/why bank says what is missing\n",
        "10": f"silo: hint: ./tools/explain {room}/p.grain shows the line\n",
        "13": 'silo: hint: docs/LANGUAGE.md, "What another program of a silo may change", says what is taken\n',
    }
    found = on_terminal(room, "a b", "run", NUMBER="7")
    rows.row("a folder with a blank", found, (7, "silo: text\nsilo: hint: ./tools/why a\\ b says what is missing\n"))
    for number, hint in hints.items():
        found = on_terminal(room, "bank", "init", given=f"{room}/p.grain", NUMBER=number)
        rows.row(f"the hint behind {number}", found, (int(number), f"silo: text\n{hint}"))
        rows.row(f"no hint without a terminal: {number}", launch(room, "bank", NUMBER=number)[2], "silo: text\n")

    # What a build says on a terminal, in one line.
    os.remove(f"{top}/crates/silo/out/silo")
    number, shown = on_terminal(room, "bank", "show", PAUSE="2")
    parts = ("1 of 4 crates are proved, 0 min", "3 of 4 crates are proved, 0 min")
    rows.row("progress", (number, [part for part in parts if f"\rsilo: {part}" not in shown]), (0, []))

    # A build that fails.
    os.remove(f"{top}/crates/silo/out/silo")
    number, output, errors = launch(room, "bank", "show", FAILS="1")
    lines = errors.splitlines()
    rows.row("a build that fails", (number, output, lines[1:3], lines[-2:]), (1, "", ["72", "73"], [
        "fn high::f: not proved", f"silo: the program wasn't built: rt ended with 1. The whole log is {log}"]))
    rows.row("how much of the log it shows", len(lines), 1 + 30 + 1)
    for logic, said in (("01ab", "fn high::f: not proved"), ("23cd", "silo: README.md names a kit of logic 23cd, and `rt version` says logic 01ab")):
        file(f"{top}/README.md", f"A kit whose `rt version` says `logic {logic}`.\n")
        rows.row(f"a build that fails, with a kit of another logic: {logic}", launch(room, "bank", "show", FAILS="1")[2].splitlines()[-2], said)
    os.remove(f"{room}/bin/rt")
    number, output, errors = launch(room, "bank", "show", PATH="/usr/bin:/bin")
    rows.row("no rt", (number, output, errors), (1, "", "silo: there is no `rt`, the command of the Rattle kit, on PATH: README.md says where it comes from\n"))

with tempfile.TemporaryDirectory() as room:
    # Where nothing can be written.
    top = repository(room)
    file(f"{top}/out", "")
    rows.row("no place for the log", launch(room, "bank"), (1, "", f"silo: the program wasn't built: [Errno 17] File exists: '{top}/out'\n"))
    file(f"{top}/crates/silo/out/silo", "#!/bin/sh\n", 0o755)
    rows.row("nothing to build there", subprocess.run([f"{top}/tools/build"], stdin=subprocess.DEVNULL, capture_output=True).returncode, 0)

with tempfile.TemporaryDirectory() as room:
    # Two at once: one builds, the other waits for it.
    repository(room)
    both = [background(room, "./silo", "bank", PAUSE="1") for _ in range(2)]
    said = [one.communicate(timeout=60) for one in both]
    rows.row("two at once", (asked(room), [one.returncode for one in both], [output for output, _ in said]), (2, [0, 0], [b"words bank\n"] * 2))
    rows.row("one waits", sum(b"silo: another build goes: waiting for it\n" in errors for _, errors in said), 1)

for number in (signal.SIGINT, signal.SIGHUP, signal.SIGTERM):
    with tempfile.TemporaryDirectory() as room:
        # A signal ends the build and what it started.
        top = repository(room)
        # A check that runs in the background may have been started to ignore it.
        heeds = {"start_new_session": True, "preexec_fn": lambda number=number: signal.signal(number, signal.SIG_DFL)}
        one = started(room, "./silo", "bank", how=heeds, PAUSE="30")
        os.killpg(one.pid, number)
        one.communicate(timeout=20)
        is_gone = comes(lambda: not within(top))
        rows.row(f"a signal: {number.name}", (one.returncode != 0, os.path.exists(f"{top}/crates/silo/out/silo"), is_gone), (True, False, True))

with tempfile.TemporaryDirectory() as room:
    # One that is killed leaves what it started, and the next one waits for that.
    repository(room)
    one = started(room, "tools/build", PAUSE="2")
    one.kill()
    one.communicate(timeout=20)
    number, output, errors = launch(room, "bank")
    rows.row("behind a build that was killed", (number, output, errors.split("\n")[0]), (0, "words bank\n", "silo: another build goes: waiting for it"))

with tempfile.TemporaryDirectory() as room:
    # A source that changes while it is built is built once more.
    top = repository(room)
    one = started(room, "./silo", "bank", PAUSE="1")
    file(f"{top}/crates/low/src/lib.rt", "// another low\n")
    one.communicate(timeout=60)
    before, _ = asked(room), launch(room, "bank")
    rows.row("a source that changes meanwhile", (before, asked(room)), (2, 4))
    launch(room, "bank")
    rows.row("and no more", asked(room), 4)

with tempfile.TemporaryDirectory() as room:
    # By a link, the launcher finds its repository.
    repository(room)
    os.symlink(f"{room}/top/silo", f"{room}/bin/silo")
    done = subprocess.run(["silo", "bank"], cwd=room, env=environment(room), stdin=subprocess.DEVNULL, capture_output=True, timeout=60)
    rows.row("a link", (done.returncode, done.stdout), (0, b"words bank\n"))

with tempfile.TemporaryDirectory() as room:
    # By the kit's own calls: what has most text above it first, side by side, with the jobs that are left over; each sum made once a crate.
    top = repository(room, PYTHON_RT)
    file(f"{top}/crates.txt", "low:\nleft: low\nright: low\ntall: left\nsilo: low left right tall\n")
    USES = {"low": [], "left": ["low"], "right": ["low"], "tall": ["left"], "silo": ["low", "left", "right", "tall"]}
    for name in ("left", "right", "tall"):
        file(f"{top}/crates/{name}/src/lib.rt", "// a crate\n")

    def prove(jobs, anew=True, **more):
        """How tools/prove ends, and what the stand-in was asked. Where it is anew, nothing of an earlier run is left."""
        if os.path.exists(f"{room}/asked"):
            os.remove(f"{room}/asked")
        if anew:
            shutil.rmtree(f"{top}/crates/silo/out", ignore_errors=True)
        done = subprocess.run([f"{top}/tools/prove", jobs], cwd=f"{top}/crates/silo", env=environment(room, **more), capture_output=True, timeout=60)
        with open(f"{room}/asked") as it:
            lines = it.read().split("\n")[:-1]
        # Of two that are begun at one time either may say so first.
        said = re.findall(r"(?m)^== (\w+)$\n(?:.*\n)*?^prove: \1 (is proved|isn't proved, and ended with -?\d+): \d s, with --jobs \d$", done.stdout.decode())
        names = [name if how == "is proved" else f"{name} {how.split()[-1]}" for name, how in said]
        return done.returncode, sorted(names), lines[:3] + sorted(lines[3:5]) + lines[5:]

    def begin(name, jobs):
        """What is asked for a crate: a library of statements over those of the crates that it uses, or the program over them."""
        over = "".join(f" {it}=crates/silo/out/rlib/{it}.rlib" for it in USES[name])
        makes = "--toolchain /kit/toolchain --backend llvm crates/silo/out/silo.o" if name == "silo" else f"--statements crates/silo/out/rlib/{name}.rlib"
        return f"begin {name} rattle build --jobs {jobs}{over} {makes}"

    def again(**more):
        """What is proved where an earlier run proved all."""
        number, names, asked = prove("4", anew=False, TEXT="1", **more)
        return number, len(names), [line.split()[1] for line in asked if line.startswith("begin ")]

    sums = "(silo(low)(left(low))(right(low))(tall(left(low)))) True 10"
    # Side by side, and in this order.
    order, fails = "left:begin right,right:end tall", "left:begin right,right:end left"
    wanted = ["lock low left right tall silo", begin("low", 4), "end low", begin("left", 2), begin("right", 2), "end left",
              begin("tall", 2), "end tall", "end right", begin("silo", 4), "end silo", sums]
    rows.row("side by side", prove("4", WAITS=order), (0, ["left", "low", "right", "silo", "tall"], wanted))
    one = [word for name in ("low", "left", "right", "tall", "silo") for word in (begin(name, 1), f"end {name}")]
    found = prove("1")
    rows.row("one after another", (found[0], sorted(found[2][1:-1])), (0, sorted(one)))
    rows.row("a library that fails", prove("4", FAILS="left", WAITS=fails), (1, ["left 1", "low", "right"], [*wanted[:6], "end right"]))
    killed = [*wanted[:6], begin("tall", 2), "end tall", "end right", begin("right", 2), "end right", begin("silo", 2), "end silo", sums]
    rows.row("a check that is killed", prove("4", KILLED="right", WAITS=order), (0, ["left", "low", "right", "right -9", "silo", "tall"], killed))

    # What is proved stays, as long as its text does, and the libraries that it stands on are as they were.
    rows.row("a first run", prove("4", TEXT="1")[0], 0)
    rows.row("nothing changed", again(), (0, 5, ["silo"]))
    file(f"{top}/crates/left/src/lib.rt", "// another crate\n")
    rows.row("a text that changed", again(), (0, 5, ["left", "tall", "silo"]))
    file(f"{top}/crates/silo/out/rlib/right.rlib/format", "// a crat")
    rows.row("a library that isn't as it was made", again(), (0, 5, ["right", "silo"]))
    os.remove(f"{top}/crates/silo/out/rlib/low.made")
    rows.row("a library that nobody knows", again(), (0, 5, ["low", "silo"]))
    file(f"{top}/crates/right/src/lib.rt", "// a right crate\n")
    rows.row("a text that changes meanwhile", again(EDITED="right"), (0, 5, ["right", "silo"]))
    rows.row("and the next run", again(), (0, 5, ["right", "silo"]))
    file(f"{top}/crates/left/src/lib.rt", "// a wrong crate\n")
    rows.row("a change that fails", again(FAILS="left")[::2], (1, ["left"]))
    rows.row("fails again", again(FAILS="left")[::2], (1, ["left"]))

    plain = ["as it is: all check --jobs 4", "as it is: run"]
    rows.row("a kit without what is used", prove("4", LACKS="stamp"), (0, [], plain))
    rows.row("a rattle without it", prove("4", HELP=""), (0, [], plain))
    rows.row("rt as it is", prove("4", SILO_PLAIN_RT="1"), (0, [], plain))
    rows.row("no jobs", subprocess.run([f"{top}/tools/prove"], capture_output=True).returncode, 1)
    if os.path.exists(f"{top}/crates/silo/out/silo"):
        os.remove(f"{top}/crates/silo/out/silo")
    number, output, errors = launch(room, "bank")
    said = f"silo: proving 5 crates, N at a time, and building the program; the log is {top}/out/build.log\n"
    rows.row("the launcher by it", (number, re.sub(r"\d+ at a time", "N at a time", errors)), (0, said))

if shutil.which("rt"):
    # The kit's own rt, with its sums made once.
    said = [subprocess.run([rt, "version"], stdin=subprocess.DEVNULL, capture_output=True).stdout for rt in ("rt", f"{TOP}/tools/rt")]
    rows.row("tools/rt is rt", (said[0] != b"", said[1]), (True, said[0]))

rows.end()
