"""Each combination of standard descriptors that are closed at the start: no file of the folder gets the number of one, and the
folder opens afterwards with all that was answered. And processes that may open few files: they do the same as others."""
import itertools
import json
import os
import tempfile

from harness import BANK, Ended, Rows, ask, deposit, reply, run

rows = Rows("descriptors")

for closed in itertools.chain.from_iterable(itertools.combinations((0, 1, 2), count) for count in range(4)):
    with tempfile.TemporaryDirectory() as folder:

        def text(line):
            return b"" if 2 in closed else line

        unread = Ended(4, b"", text(b"silo: read fault\n"))
        if 0 in closed:
            rows.row(f"init without {closed}", run(folder, "init", closed=closed), unread)
            rows.row(f"nothing is made without {closed}", os.listdir(folder), [])
            run(folder, "init", given=BANK)
            wanted, logged = unread, 0
        else:
            rows.row(f"init without {closed}", run(folder, "init", given=BANK, closed=closed), Ended(0, b"", b""))
            if 1 in closed:
                wanted, logged = Ended(5, b"", text(b"silo: write fault\n")), 1
            else:
                wanted, logged = Ended(0, reply(1, 5, 1) + reply(2, 11, 2), b""), 2
        rows.row(f"run without {closed}", run(folder, "run", given=deposit(5) + deposit(6), closed=closed), wanted)
        total = (0, 5, 11)[logged]
        rows.row(f"afterwards, without {closed}", run(folder, "run", given=ask()), Ended(0, reply(1, total, logged + 1), b""))
        names = sorted(os.listdir(folder))
        rows.row(f"the files, without {closed}", names, ["grain-0-0-1.otx"] * (logged > 0) + ["manager-0.otx", "program-0.otx"])
        rows.row(f"bad use without {closed}", run(folder, closed=closed), Ended(2, b"", text(b"silo: bad use\n")))

# So many files a process may have open, the standard streams among them: fewer handles are kept then, and all is done as ever.
for files in (16, 40, None):
    with tempfile.TemporaryDirectory() as folder:
        run(folder, "init", given=BANK)
        lines = [deposit(1, account) for _ in range(3) for account in range(50)]
        for time in ("first", "second"):
            ended = run(folder, "run", "--width", "1", given=b"".join(lines), open_files=files)
            answered = [line for line in ended.output.splitlines() if "reply" in json.loads(line)]
            rows.row(f"a {time} run over 50 grains with {files} files", (ended.number, ended.errors, len(answered)), (0, b"", 150))
        audit = run(folder, "audit", open_files=files)
        told = json.loads(audit.output)
        rows.row(f"the log of {files} files", (audit.number, told["count"], told["first_bad"]), (0, 300, None))

rows.end()
