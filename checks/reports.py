"""Reports and loads over real folders: their lines, worked out by hand from docs/FORMATS.md, and their numbers."""
import os
import tempfile

from harness import BANK, MEMORY, Rows, ask, deposit, held, line, reply, run, says, silent

rows = Rows("reports")

SUMMARY = b'{"aborted":%d,"committed":%d,"faulted":%d,"requests":%d,"total":64000}\n'


def number_in(summary, key):
    """A number of a summary's line."""
    return int(summary.split(b'"%s":' % key)[1].split(b",")[0].rstrip(b"}\n"))


with tempfile.TemporaryDirectory(dir=MEMORY) as room:

    def folder(name, program=None):
        path = os.path.join(room, name)
        os.mkdir(path)
        if program is not None:
            rows.row(f"init of {name}", run(path, "init", given=program), silent())
        return path

    # A silo of one deposit, and one whose reply couldn't be written.
    one = folder("one", BANK)
    rows.row("an empty silo", run(one, "show"), silent(b'{"count":0}\n'))
    run(one, "run", given=deposit(5))
    cut = folder("cut", BANK)
    rows.row("a failed reply", run(cut, "run", given=deposit(5), closed=(1,)), says(5, b"write fault"))
    for silo in (one, cut):
        name = os.path.basename(silo)
        rows.row(f"show of {name}", run(silo, "show"), silent(b'{"fields":{"balance":5},"grain":"account/1"}\n{"count":1}\n'))
        rows.row(f"history of {name}", run(silo, "history"), silent(b'{"args":[5],"call":"account/1.deposit","n":1,"reply":5,"session":1,"unit":1}\n'))
        rows.row(f"audit of {name}", run(silo, "audit"), silent(b'{"count":1,"first_bad":null}\n'))
    rows.row("a report that can't be written", run(one, "show", closed=(1,)), says(5, b"write fault"))

    # The log of a deposit, with a byte changed or cut.
    log = os.path.join(one, "manager-0.otx")
    whole = held(one, "manager-0.otx")
    for what, content, command, wanted in [
        ("another result", whole[:68] + b"\6" + whole[69:], "audit", silent(b'{"count":1,"first_bad":1}\n')),
        ("a cut log", whole[:50], "show", says(9, b"damaged manager-0.otx at 16")),
        ("another tag", whole[:55] + b"\3" + whole[56:], "show", says(9, b"damaged manager-0.otx at 55")),
        ("a closed gate of another byte", whole[:96] + b"\7", "show", silent(b'{"fields":{"balance":5},"grain":"account/1"}\n{"count":1}\n')),
        ("a header byte", whole[:13] + b"\xff" + whole[14:], "show", says(9, b"damaged manager-0.otx at 13")),
    ]:
        with open(log, "wb") as file:
            file.write(content)
        rows.row(f"{command} with {what}", run(one, command), wanted)

    # Folders that open and that no one-thread store left: a run goes on over them, answers truly from what they read, and leaves what
    # it found but for the gate at which its own record begins.
    [versions] = [name for name in os.listdir(cut) if name not in ("manager-0.otx", "program-0.otx")]
    version = held(cut, versions)
    for what, file_name, at, byte, balance in [
        ("another result", "manager-0.otx", 68, 6, 5),
        ("another balance", versions, version.index(b"\5"), 9, 9),
    ]:
        other = folder(what.replace(" ", "-"))
        for name in os.listdir(cut):
            content = bytearray(held(cut, name))
            if name == file_name:
                content[at] = byte
            with open(os.path.join(other, name), "wb") as file:
                file.write(content)
        result = 6 if file_name == "manager-0.otx" else 5
        found = held(other, "manager-0.otx")
        rows.row(f"audit of {what}", run(other, "audit"), silent(b'{"count":1,"first_bad":1}\n'))
        rows.row(f"a run over {what}", run(other, "run", given=deposit(7) + ask() + deposit(1, account=2)),
                 silent(reply(1, balance + 7, 2) + reply(2, balance + 7, 3) + reply(3, 1, 4)))
        rows.row(f"history behind {what}", run(other, "history").output.splitlines(), [
            b'{"args":[5],"call":"account/1.deposit","n":1,"reply":%d,"session":1,"unit":1}' % result,
            b'{"args":[7],"call":"account/1.deposit","n":1,"reply":%d,"session":2,"unit":2}' % (balance + 7),
            b'{"args":[],"call":"account/1.read","n":2,"reply":%d,"session":2,"unit":3}' % (balance + 7),
            b'{"args":[1],"call":"account/2.deposit","n":3,"reply":1,"session":2,"unit":4}'])
        rows.row(f"audit behind {what}", run(other, "audit"), silent(b'{"count":4,"first_bad":1}\n'))
        gate = len(found) - 1
        left = held(other, "manager-0.otx")
        rows.row(f"the log behind {what}", (left[:gate], left[gate]), (found[:gate], 1))
        rows.row(f"the versions behind {what}", held(other, versions)[:len(version)],
                 version if file_name == "manager-0.otx" else version[:at] + bytes([byte]) + version[at + 1:])

    # Loads: what a load of this number and seed sums up to, in two folders alike.
    rows.row("a load of four", run(folder("four"), "load", "4", "7"), silent(SUMMARY % (0, 68, 0, 68)))
    least = run(folder("greatest"), "load", "1", "18446744073709551615").output
    rows.row("the greatest seed", (number_in(least, b"requests"), number_in(least, b"total")), (65, 64000))
    many = [run(folder(f"many{n}"), "load", "20000", "7", "--width", "8") for n in (1, 2)]
    rows.row("many, twice", many[0], many[1])
    rows.row("many", (many[0].number, number_in(many[0].output, b"requests"), number_in(many[0].output, b"total")), (0, 20064, 64000))
    rows.row("an audit of many", run(os.path.join(room, "many1"), "audit").output.endswith(b'"first_bad":null}\n'), True)
    rows.row("a load where a silo is", run(one, "load", "1", "7"), says(8, b"already a silo"))
    for words in (["0", "7"], ["100001", "7"], ["1", "18446744073709551616"], ["1"], ["1", "7", "--turns", "0"], ["01", "7"]):
        rows.row(f"load {words}", run(room, "load", *words), says(2, b"bad use"))

    # The options of calls, in a silo of the program that loads carry.
    probes = folder("probes", held(os.path.join(room, "four"), "program-0.otx")[4:])
    run(probes, "run", given=line("probe/0.needs") + line("probe/0.calls_lone") + line("probe/0.lone"))
    rows.row("history of options", run(probes, "history"), silent(b'{"args":[],"call":"probe/0.calls_lone","fault":"not allowed","n":2,"session":1,"unit":2}\n'))
    run(probes, "run", given=line("probe/3.outer"))
    refused = b'{"args":[],"call":"probe/3.outer","n":1,"reply":11,"session":2,"unit":3}'
    rows.row("history of a child that was refused", run(probes, "history").output.split(b"\n")[1:], [refused, b""])

rows.end()
