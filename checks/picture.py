"""tools/picture: an SVG file that has each record of the log once, in its order, in its batch, and beneath the unit that began it."""
import json
import os
import shutil
import subprocess
import sys
import tempfile
import xml.etree.ElementTree as xml

from harness import BANK, PROGRAM, TOP, Rows, deposit, run

rows = Rows("picture")
SVG = "{http://www.w3.org/2000/svg}"


def picture(folder, *words):
    asks, env = [sys.executable, os.path.join(TOP, "tools", "picture"), folder, *words], {**os.environ, "SILO": PROGRAM}
    done = subprocess.run(asks, env=env, capture_output=True, timeout=100)
    return done.returncode, done.stdout.decode(), done.stderr.decode()


def drawn(text):
    """The boxes from left to right, each as its kind, its x and y and its texts; the columns of batches, each as its x, its end and its head;
    and the lines between units."""
    tree = xml.fromstring(text)
    boxes = []
    for group in tree.findall(f"{SVG}g"):
        rect = group.find(f"{SVG}rect")
        boxes.append((group.get("class"), float(rect.get("x")), float(rect.get("y")), [line.text for line in group.findall(f"{SVG}text")]))
    bands = [(float(rect.get("x")), float(rect.get("x")) + float(rect.get("width"))) for rect in tree.findall(f"{SVG}rect")]
    heads = [line.text for line in tree.findall(f"{SVG}text")]
    return sorted(boxes, key=lambda box: box[1]), list(zip(bands, heads)), tree.findall(f"{SVG}path")


with tempfile.TemporaryDirectory() as room:
    hall = os.path.join(room, "hall")
    os.mkdir(hall)
    with open(os.path.join(TOP, "examples", "seats", "seats.grain"), "rb") as file:
        run(hall, "init", given=file.read())
    with open(os.path.join(TOP, "examples", "seats", "requests.jsonl"), "rb") as file:
        run(hall, "run", "--width", "4", given=file.read())
    records = [json.loads(line) for line in run(hall, "history").output.splitlines()]
    number, text, errors = picture(hall)
    boxes, bands, edges = drawn(text)
    units = [box for box in boxes if box[0] != "absent"]
    rows.row("how it ends", (number, errors), (0, ""))
    rows.row("each record, in the log's order", [box[3][0].split(",")[0] for box in units], [f"unit {record['unit']}" for record in records])
    numbered = [(box, record["n"]) for box, record in zip(units, records) if "n" in record]
    rows.row("lines have their numbers", (len(numbered) > 0, [n for box, n in numbered if not box[3][0].endswith(f", line {n}")]), (True, []))
    rows.row("faults", [box[0] == "unit fault" for box in units], ["fault" in record for record in records])
    place = {box[3][0].split(",")[0]: box[1:3] for box in boxes}
    below = [place[f"unit {record['unit']}"][1] - place[f"unit {record['parent']}"][1] for record in records if "parent" in record]
    rows.row("children stand one row below", (len(below) > 0, set(below)), (True, {74.0}))
    rows.row("a line for each child", len(edges), len(below))
    rows.row("no two boxes in one place", len({box[1:3] for box in boxes}), len(boxes))
    found = [sum(start < box[1] < end for box in units) for (start, end), _ in bands]
    rows.row("batches", ([head for _, head in bands], sum(found)),
             ([f"batch {at + 1}: {count} record{'s' * (count != 1)}" for at, count in enumerate(found)], len(records)))

    # The last ones of a log, with the number of their batch.
    _, text, _ = picture(hall, "--last", "1")
    boxes, bands, _ = drawn(text)
    rows.row("the last record", [box[3][0].split(",")[0] for box in boxes if box[0] != "absent"], [f"unit {records[-1]['unit']}"])
    rows.row("its batch", [head for _, head in bands], [f"batch {len(found)}: 1 record"])

    # A unit that isn't in the log: a plain run that began a transaction.
    helper = os.path.join(room, "helper")
    os.mkdir(helper)
    run(helper, "init", given=BANK + b"type helper { method pay(n) suppress plain { call account/1.deposit(n); return n; } }\n")
    run(helper, "run", given=b'{"args":[5],"call":"helper/0.pay"}\n' + deposit(2))
    boxes, bands, edges = drawn(picture(helper)[1])
    rows.row("a unit outside the log", [(box[0], box[3]) for box in boxes], [
        ("absent", ["unit 1", "not in the log"]),
        ("unit", ["unit 2", "account/1.deposit(5)", "5"]),
        ("unit", ["unit 3, line 2", "account/1.deposit(2)", "7"])])
    rows.row("it stands in its child's batch", [start < boxes[0][1] < end for (start, end), _ in bands][:1], [True])

    # Texts that SVG would read as its own.
    names = os.path.join(room, "names")
    os.mkdir(names)
    run(names, "init", given=b"type a { field f = \"\"; method say(t) create update { set f = t; return t; } }")
    run(names, "run", given=b'{"args":["<&>"],"call":"a/1.say"}\n')
    rows.row("odd texts", drawn(picture(names)[1])[0][0][3], ["unit 1, line 1", 'a/1.say("<&>")', "<&>"])
    # A character that XML has none for.
    run(names, "run", given=b'{"args":["bell \\u0007"],"call":"a/1.say"}\n')
    rows.row("a control character", drawn(picture(names)[1])[0][1][3], ["unit 2, line 1", 'a/1.say("bell \\u0007")', "bell \ufffd"])

    os.mkdir(os.path.join(room, "new"))
    run(os.path.join(room, "new"), "init", given=BANK)
    rows.row("an empty log", (picture(os.path.join(room, "new"))[0], "no records" in picture(os.path.join(room, "new"))[1]), (0, True))
    rows.row("no silo", picture(os.path.join(room, "none")), (7, "", "silo: not a silo\n"))
    script = os.path.join(room, "tools", "picture")
    shutil.copytree(os.path.join(TOP, "tools"), os.path.dirname(script))
    done = subprocess.run([sys.executable, script, hall], env={"PATH": "/nowhere"}, capture_output=True)
    rows.row("no program", (done.returncode, done.stderr), (1, b"picture: silo: No such file or directory\n"))

rows.end()
