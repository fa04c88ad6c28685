#!/usr/bin/env python3
"""Times openings of a silo whose program was upgraded many times beside those of one whose wasn't:  bench/upgrades.py [PLACE] [TRANSFERS [UPGRADES]]

A load of so many transfers (100,000 where none is told) beneath PLACE, the folder for temporary files where none is given; a copy of it gets
so many upgrades (10) to a program of a field more and to one without it in turn, behind its records. Each is opened in turn by a run
without lines, and the least and the middle of so many seconds of a processor are told, with how many times as long the upgraded one takes.
Where SILO names a program, that one is timed.
"""
import os
import shutil
import statistics
import subprocess
import sys
import tempfile

import runs

OPENINGS = 11


def run(folder, *words, given=b""):
    subprocess.run([runs.PROGRAM, folder, *words], input=given, stdout=subprocess.DEVNULL, check=True)


def opened(folder):
    """The seconds of a processor that an opening takes."""
    before = sum(runs.processor())
    run(folder, "run")
    return sum(runs.processor()) - before


words = sys.argv[1:]
place = words.pop(0) if words and not words[0].isdigit() else None
transfers, upgrades = [int(word) for word in words] + [100_000, 10][len(words):]
with tempfile.TemporaryDirectory(dir=place) as room:
    plain, upgraded = os.path.join(room, "plain"), os.path.join(room, "upgraded")
    os.mkdir(plain)
    run(plain, "load", str(transfers), "7", "--width", "64")
    shutil.copytree(plain, upgraded)
    with open(os.path.join(plain, "program-0.otx"), "rb") as file:
        text = file.read()[4:]
    for turn in range(upgrades):
        run(upgraded, "upgrade", given=text.replace(b"field balance = 0;", b"field balance = 0; field limit = 7;") if turn % 2 == 0 else text)
    took = {folder: [] for folder in (plain, upgraded)}
    for _ in range(OPENINGS):
        for folder in took:
            took[folder].append(opened(folder))
    for folder, name in ((plain, "without upgrades"), (upgraded, f"behind {upgrades} upgrades")):
        print(f"{name}: {min(took[folder]):.3f} s at least, {statistics.median(took[folder]):.3f} s in the middle")
    print(f"{min(took[upgraded]) / min(took[plain]):.3f} times by the least, {statistics.median(took[upgraded]) / statistics.median(took[plain]):.3f} by the middle")
