#!/usr/bin/env python3
"""Holds the pages to the repository: what they name exists, no line is wider than 120 characters, lists and drawings are up to date.

Names in backticks are held: laws and definitions, items of the code, must-fail edits, crates, files, paths, and commands of `rt`. Where a
page says in which file of specs/ or proofs/, or in which crate, a name stands (`NAME` of `PLACE`), it must stand there.
It prints what is wrong, and its status is 0 if nothing is.
"""
import functools
import pathlib
import re
import shutil
import subprocess
import sys

ROOT = pathlib.Path(__file__).resolve().parent.parent
CRATES = ROOT / "crates"
# records of what was: they may name what is no more
RECORDS = {"PORT.md", "DESIGN-PASS.md"}
GONE = {"host/samples/make_plan.py"}
PACKAGES = {"qemu-user", "libboost-graph-dev", "rattle-kit-13f"}
# code beside the crates, whose words pages may name
BESIDE = ["host", "include", "bench", "tools", "run", "show", "plan", "install", ".ci/run"]
ONCE = {"respell.py"}  # it names what is no more
NAME = r"[\w⊑⊕][\w⊑⊕'-]*"


def pages():
    yield from sorted(ROOT.glob("*.md"))
    yield from sorted(page for page in (ROOT / "docs").rglob("*.md") if page.name not in RECORDS)


@functools.cache
def text_of(path):
    try:
        return path.read_text()
    except (UnicodeDecodeError, OSError):
        return ""


def definitions(path):
    """The names that a file of specs/ or proofs/ defines, fields and constructors among them."""
    return set(re.findall(r"^ *(?:(?:pub|abbrev|unfoldable|data|record) )*([^\s:(){},;]+)(?= |$)", text_of(path), re.M))


def items(folder):
    """The words of the code in a crate's src/, without comments."""
    return set().union(*(re.findall(r"\w+", re.sub(r"//.*", "", text_of(path))) for path in (folder / "src").rglob("*.rt")))


@functools.cache
def of_crate(crate):
    """Every name that a crate has: what its specs and proofs define, words of its code, its must-fail edits and its files."""
    folder = CRATES / crate
    names = items(folder) | {path.stem for path in folder.rglob("*") if "out" not in path.relative_to(folder).parts}
    for path in (path for part in ("specs", "proofs") for path in (folder / part).rglob("*.antt")):
        names |= definitions(path)
    return names


@functools.cache
def known():
    """Every name that a page may cite."""
    crates = [path.name for path in CRATES.iterdir() if path.is_dir()]
    names = set(crates).union(PACKAGES, *(of_crate(crate) for crate in crates))
    for place in BESIDE:
        path = ROOT / place
        for file in path.rglob("*") if path.is_dir() else [path]:
            if file.is_file() and file.name not in ONCE:
                names |= {file.stem} | set(re.findall(r"\w+", text_of(file)))
    return names


@functools.cache
def commands():
    """The commands of rt, by what `rt help` says; none if there is no rt."""
    if not shutil.which("rt"):
        return set()
    said = subprocess.run(["rt", "help"], stdout=subprocess.PIPE, stderr=subprocess.STDOUT, text=True).stdout
    return {"help"} | {word for group in re.findall(r"^(?:usage:)? +rt ([a-z|-]+)", said, re.M) for word in group.split("|")}


def exists(path):
    """Whether a path of the repository stands for a file or a folder; a file of Rattle or antt may lack its ending."""
    return any(pathlib.Path(f"{path}{ending}").exists() for ending in ("", ".antt", ".rt"))


def missing(name):
    """Why a name in backticks is not what it seems to be, or nothing."""
    crate, _, function = name.partition("::")
    if function and (CRATES / crate).is_dir():
        last = function.split("::")[-1]
        sources = "".join(text_of(path) for path in (CRATES / crate / "src").rglob("*.rt"))
        return None if re.search(rf"\b(fn|struct|enum|mod|const) {re.escape(last)}\b", sources) else "no such item"
    if re.fullmatch(r"([a-z_]+)/(specs|proofs|src|must-fail)(/[\w/-]+)?", name) and (CRATES / name.split("/")[0]).is_dir():
        return None if exists(CRATES / name) else "no such file"
    if re.fullmatch(r"(specs|proofs|src)/[\w/]*\w", name):
        return None if any(exists(crate / name) for crate in CRATES.iterdir()) else "no such file in any crate"
    if re.fullmatch(r"(crates|docs|host|tools|bench|samples|include)/[\w/.-]+", name) and not re.search(r"CRATE|NAME|-nn", name):
        return None if name in GONE or exists(ROOT / name) else "no such file"
    command = re.match(r"rt ([a-z-]+)", name)
    if command and commands():
        return None if command.group(1) in commands() else "no such command"
    if re.fullmatch(NAME, name) and (re.search(r"[a-z⊑⊕][_-]\w", name) or re.fullmatch(r"[A-Z][a-z]+\w*", name)):
        return None if name in known() else "no such name"
    return None


def misplaced(text):
    """What a page says to stand in a file of specs/ or proofs/, or in a crate, and does not: (where in the text, what)."""
    for found in re.finditer(rf"((?:`{NAME}`(?:,?\s+and\s+|,\s+))*`{NAME}`)\s+of\s+`([\w/]+)`", text):
        place = found.group(2)
        files = CRATES.glob(f"{place}.antt" if "/" in place else f"*/*/**/{place}.antt")
        files = [path for path in files if path.relative_to(CRATES).parts[1] in ("specs", "proofs")]
        if files:
            there = set().union(*(definitions(path) for path in files))
        elif (CRATES / place.split("/")[0]).is_dir():
            there = of_crate(place.split("/")[0])
        else:
            continue
        for name in re.findall(rf"`({NAME})`", found.group(1)):
            if name not in there:
                yield found.start(), f"`{name}`: not in `{place}`"


def main():
    faults = []
    for page in pages():
        shown, text = page.relative_to(ROOT), page.read_text()
        for n, line in enumerate(text.splitlines(), 1):
            if len(line) > 120 and not line.startswith("|"):
                faults.append(f"{shown}:{n}: {len(line)} characters")
            for name in re.findall(r"`([^`]+)`", line) if not line.startswith("    ") else []:
                why = missing(name)
                if why:
                    faults.append(f"{shown}:{n}: `{name}`: {why}")
        faults += [f"{shown}:{text.count(chr(10), 0, at) + 1}: {why}" for at, why in misplaced(text)]
    for fault in faults:
        print(fault)
    held = [subprocess.run([sys.executable, ROOT / "tools" / tool, "--check"]).returncode for tool in ("draw_crates.py", "trust.py")]
    sys.exit(1 if faults or any(held) else 0)


main()
