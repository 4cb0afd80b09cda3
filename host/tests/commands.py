#!/usr/bin/env python3
"""Tries ./plan, ./run and ./show as a user does: samples, wrong drawings, refused plans, files that are not there.

It needs "ways", which ./run builds. It holds samples/*.out, host/samples/warehouse.said and the picture that README
shows to what the commands say and draw now.
"""
import os
import re
import subprocess
import sys
import tempfile
import xml.etree.ElementTree
from pathlib import Path

ROOT = Path(__file__).resolve().parents[2]
SAMPLES = ROOT / "samples"
GOOD = "size 50\n....\n.##.\n....\n\nfrom 0 0 to 3 2\n"
BIG = "size 1000\n" + ("." * 128 + "\n") * 128 + "from 0 0 to 127 127\n" * 64

# a wrong drawing, the place that is named, and words of the message
WRONG = [
    ("", "line 1, column 1", "the cell size"),
    ("....\n", "line 1, column 1", "the cell size"),
    ("size\n....\n", "line 1, column 5", "found the end of the line"),
    ("size 0\n....\n", "line 1, column 6", "a cell size of 1 to 1000"),
    ("size 1001\n....\n", "line 1, column 6", "a cell size of 1 to 1000"),
    ("size ten\n....\n", "line 1, column 6", 'found "ten"'),
    ("size " + "9" * 5000 + "\n....\n", "line 1, column 6", "a cell size of 1 to 1000"),
    ("size 50 cm\n....\n", "line 1, column 9", "expected the end of the line"),
    ("size 50\n", "line 2, column 1", "the floor's first row"),
    ("size 50\nfrom 0 0 to 0 0\n", "line 2, column 1", "the floor's first row"),
    ("size 50\n..X.\n", "line 2, column 3", '"#" for a blocked cell or "." for an open one, found "X"'),
    ("size 50\n....\n.. .\n", "line 3, column 3", "found a blank"),
    ("size 50\n....\n....  \n", "line 3, column 5", "found a blank"),
    ("size 50\n....\n\t...\n", "line 3, column 1", "found a tab"),
    ("size 50\n....\n    \n....\n", "line 3, column 1", "found a blank"),
    ("size 50\n..ä.\n", "line 2, column 3", 'found "ä"'),
    ("size 50\n....\n...\n", "line 3, column 4", "expected 4 cells, as in the first row, found the row's end after 3"),
    ("size 50\n....\n.....\n", "line 3, column 5", "the row's end after 4 cells, as in the first row"),
    ("size 50\n" + "." * 129 + "\n", "line 2, column 129", "the row's end after 128 cells"),
    ("size 50\n" + ".\n" * 129, "line 130, column 1", "at most 128 rows"),
    ("size 50\n....\n\n....\n", "line 4, column 1", "since the floor has ended"),
    ("size 50\n....\nfrom 0 0 to 1 0\n....\n", "line 4, column 1", "since the floor has ended"),
    ("size 50\n....\nto 0 0 from 1 0\n", "line 3, column 1", 'found "t"'),
    ("size 50\n....\nfrom 0 0 to 4 0\n", "line 3, column 13", "a column of 0 to 3"),
    ("size 50\n....\nfrom 0 1 to 3 0\n", "line 3, column 8", "a row of 0 to 0"),
    ("size 50\n....\nfrom -1 0 to 3 0\n", "line 3, column 6", "a column of 0 to 3"),
    ("size 50\n....\nfrom 0 0 3 0\n", "line 3, column 10", '"to" and the goal'),
    ("size 50\n....\nfrom 0 0 to 3\n", "line 3, column 14", "found the end of the line"),
    ("size 50\n....\nfrom 0 0 to 3 0 0\n", "line 3, column 17", "expected the end of the line"),
    (BIG + "from 0 0 to 0 0\n", "line 194, column 1", "at most 64 queries"),
]
# bytes that are no plan, and why
REFUSED = [
    (b"", "it breaks at byte 0"),
    (bytes(4097), "it has more than 4,096 bytes"),
    (bytes([4, 0, 1, 0, 0, 0, 3, 0, 0, 0, 2, 0, 2, 0, 3, 0, 50, 0]), "width or height outside 1 to 128"),
    (bytes([4, 0, 1, 0, 5, 0, 3, 0, 2, 0, 2, 0, 0, 0, 2, 0, 3, 0, 50, 0]), "map of the wrong length"),
    (bytes([4, 0, 1, 0, 5, 0, 1, 0, 1, 0, 2, 0, 32, 2, 0, 3, 0, 50, 0]), "a bit past the width is set"),
    (bytes([4, 0, 1, 0, 5, 0, 1, 0, 1, 0, 2, 0, 0, 2, 0, 3, 0, 0, 0]), "cell size outside 1 to 1,000"),
]
checks, failures = 0, 0


def expect(held, what, seen=""):
    """Counts a check, and says which failed."""
    global checks, failures
    checks += 1
    if not held:
        failures += 1
        print(f"FAILED: {what}: {seen!r}")


def command(*words, given=b""):
    """Runs a command of the repository's root; its status, output and messages."""
    run = subprocess.run([ROOT / words[0], *words[1:]], input=given, capture_output=True, check=False)
    return run.returncode, run.stdout, run.stderr.decode()


def try_plan():
    """Drawings, right and wrong."""
    status, made, _ = command("plan", SAMPLES / "warehouse.txt")
    expect(status == 0 and made == (SAMPLES / "warehouse.plan").read_bytes(), "the sample's plan", status)
    status, made, _ = command("plan", "-", given=BIG.encode())
    expect(status == 0 and len(made) == 2834, "the largest drawing", len(made))
    plain = command("plan", "-", given=GOOD.encode())[1]
    remarks = "\ufeff-- a remark\n\n" + GOOD.replace(".##.", ".##.\n-- another")
    for other in (GOOD.replace("\n", "\r\n"), GOOD[:-1], remarks):
        expect(plain != b"" and command("plan", "-", given=other.encode())[1] == plain, "written otherwise", other)
    for drawing, place, words in WRONG:
        status, made, said = command("plan", "-", given=drawing.encode())
        held = status == 1 and made == b"" and f"standard input, {place}: expected " in said and words in said
        expect(held, f"a wrong drawing, {place}", said)
    status, made, said = command("plan", "-", given=b"size 50\n.\xff.\n")
    expect(status == 1 and made == b"" and "line 2, column 2: expected text in UTF-8" in said, "no text", said)
    for name, words in ((SAMPLES, "Is a directory"), (SAMPLES / "none", "No such file")):
        status, made, said = command("plan", name)
        expect(status == 1 and made == b"" and words in said, "a drawing that can't be read", said)
    expect(command("plan")[0] == 2 and command("plan", "--help")[0] == 0, "no drawing, and --help")


def try_run():
    """The samples' output, and files that can't be read."""
    for plan in sorted(SAMPLES.glob("*.plan")):
        status, said, _ = command("run", plan)
        expected = plan.with_suffix(".out").read_bytes()
        expect(status == 0 and said == f"{plan.name}:\n".encode() + expected, f"what ./run prints of {plan.name}", said)
        expect(command("run", "-", given=plan.read_bytes())[1] == expected, "a plan on standard input")
    expected = b"example.plan:\n" + (SAMPLES / "example.out").read_bytes()
    status, said, wrong = command("run", SAMPLES / "none", SAMPLES, SAMPLES / "example.plan")
    expect(status == 1 and said == expected, "a plan beside two that are none is run", said)
    expect("there is no file" in wrong and "is a folder" in wrong, "what is wrong is said", wrong)
    expect(command("run", "--help")[0] == 0 and command("run", "--none")[0] == 2, "options")


def try_show(folder):
    """What is drawn and said."""
    shown = folder / "warehouse.svg"
    status, said, _ = command("show", SAMPLES / "warehouse.plan", shown)
    text = said.decode()
    expect(status == 0 and shown.read_bytes() == (ROOT / "docs" / "warehouse.svg").read_bytes(),
           "docs/warehouse.svg is what ./show draws (./show samples/warehouse.plan docs/warehouse.svg)", status)
    ways = re.sub(r"^(\d+): from \d+ \d+ to \d+ \d+:", r"\1:", text.replace("\n    ", " "), flags=re.M)
    for line in (ROOT / "host" / "samples" / "warehouse.said").read_text().splitlines():
        expect(line in ways.splitlines(), "the sample in C says the same", line)
    picture = shown.read_text(encoding="utf-8")
    root = xml.etree.ElementTree.fromstring(picture)
    expect(root.tag.endswith("svg") and "href" not in picture and "url(" not in picture, "the picture is one file")
    bare = command("plan", "-", given=GOOD.split("\n\n")[0].encode() + b"\n")[1]
    rows = [line[4:] for line in command("show", "-", given=bare)[1].decode().splitlines()[3:6]]
    expect(rows == GOOD.splitlines()[1:4], "a floor without queries is its drawing", rows)
    for data, words in REFUSED:
        status, said, wrong = command("show", "-", folder / "none.svg", given=data)
        expect(status == 1 and said == b"" and words in wrong and not (folder / "none.svg").exists(), words, wrong)
    for name in (SAMPLES, SAMPLES / "none"):
        expect(command("show", name)[0] == 1, "a plan that can't be read", name)
    status, _, wrong = command("show", SAMPLES / "example.plan", folder / "none" / "none.svg")
    expect(status == 1 and "can't be written" in wrong, "a picture that can't be written", wrong)
    expect(command("show")[0] == 2 and command("show", "--help")[0] == 0, "no plan, and --help")


def main():
    """Tries all three."""
    os.environ.pop("COLUMNS", None)
    try_plan()
    try_run()
    with tempfile.TemporaryDirectory() as folder:
        try_show(Path(folder))
    print(f"commands: {checks} checks, {failures} failed")
    return 1 if failures else 0


sys.exit(main())
