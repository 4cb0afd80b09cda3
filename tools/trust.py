#!/usr/bin/env python3
"""Lists in docs/TRUST.md the files that a reader must believe, with their lines, and holds that list.

What must be believed stands in crates/*/specs/*.antt; what inner functions tell each other stands in crates/*/specs/inner/. The list
follows from these paths. Held besides: the promises of the entry points (public functions of the crates named in ENTRIES that have no
`requires`) lead to all of these files and to no inner one. Lines count without comments, `use` lines and blank lines.
`--check` writes nothing, and says whether all this is so.
"""
import pathlib
import re
import sys

ROOT = pathlib.Path(__file__).resolve().parent.parent
ENTRIES = ["lengths", "floor", "rooms", "table", "route", "plan", "print_plan", "headset"]
PARTS = [("the library", ENTRIES[:6]), ("what `ways` prints", ["print_plan"]), ("the C interface", ["headset"])]
KIT = {"io", "libc", "os", "bytes", "std"}
NAMED = re.compile(r"use Rattle\.(\w+)\.((?:specs|proofs)(?:\.\w+)+)\.\{([^}]*)\}")


def order_of_crates():
    lines = (ROOT / "crates.txt").read_text().splitlines()
    return [line.split(":")[0].split()[0] for line in lines if ":" in line.partition("#")[0]]


def file_of(crate, module):
    return ROOT / "crates" / crate / (module.replace(".", "/") + ".antt")


def promised_by(crate):
    """The spec files that the promises of a crate's entry points name."""
    roots = set()
    for source in sorted((ROOT / "crates" / crate / "src").glob("*.rt")):
        text = source.read_text()
        named = {}
        for dep, module, names in NAMED.findall(text):
            for name in names.split(","):
                named[name.split(" as ")[-1].strip()] = file_of(dep, module)
        for head in re.findall(r"^pub (?:extern \"C\" )?fn .*?^\{", text, re.M | re.S):
            if "requires" not in head:
                words = set(re.findall(r"[^\s(){},;⌜⌝«»]+", head.partition("ensures")[2]))
                roots |= {path for name, path in named.items() if name in words}
    return roots


def led_to(roots):
    """The files that these lead to by their `use` lines."""
    seen, ahead = set(), list(roots)
    while ahead:
        path = ahead.pop()
        if path in seen or "declared" in path.parts or path.relative_to(ROOT).parts[1] in KIT:
            continue
        seen.add(path)
        for dep, module, _ in NAMED.findall(path.read_text()):
            ahead.append(file_of(dep, module))
    return seen


def counted(path):
    lines = [line.strip() for line in path.read_text().splitlines()]
    return sum(1 for line in lines if line and not line.startswith(("--", "use ", "pub mod ")))


def told(path):
    """What a file defines: the first sentence of its head."""
    head = []
    for line in path.read_text().splitlines():
        if not line.startswith("--"):
            break
        head.append(line[2:].strip())
    text = re.sub(r'^REFERENCE, ("[^"]*"|`[^`]*`)( and "[^"]*")?(, [^:]*)?: ', "", " ".join(head))
    return re.split(r"(?<=[.:]) ", text)[0].rstrip(".:").replace("|", "\\|")


def table():
    order, rows, seen, faults, number = order_of_crates(), [], set(), [], 0
    for title, crates in PARTS:
        files = set().union(*(led_to(promised_by(crate)) for crate in crates)) - seen
        seen |= files
        place = {path: (order.index(path.relative_to(ROOT / "crates").parts[0]), path.name) for path in files}
        for path in sorted(files, key=place.get):
            name = path.relative_to(ROOT / "crates").with_suffix("")
            number += 1
            rows.append(f"| {number} | `{name}` | {told(path)} | {counted(path)} |")
        rows.append(f"| | **{title}** | | **{sum(counted(path) for path in files)}** |")
    everything = sum(counted(path) for path in seen)
    rows.append(f"| | **in all** | | **{everything}** |")
    library = {
        path for path in (ROOT / "crates").glob("*/specs/*.antt")
        if path.name != "Lib.antt" and path.parts[-3] not in ("stars",) and path.name != "inner.antt"
    }
    for path in sorted(library - seen):
        faults.append(f"{path.relative_to(ROOT)}: no promise leads here, so it belongs to specs/inner")
    for path in sorted(seen - library):
        faults.append(f"{path.relative_to(ROOT)}: a promise leads here, so it belongs to specs")
    return "\n".join(["| | file | what it defines | lines |", "|---|---|---|---|"] + rows), faults


def main():
    rows, faults = table()
    page = ROOT / "docs/TRUST.md"
    begin, end = "<!-- by tools/trust.py -->\n", "<!-- end -->"
    text = page.read_text()
    head, _, rest = text.partition(begin)
    new = head + begin + rows + "\n" + end + rest.partition(end)[2]
    if new != text and "--check" in sys.argv:
        faults.append("docs/TRUST.md is not up to date: python3 tools/trust.py")
    elif new != text:
        page.write_text(new)
    for fault in faults:
        print(fault)
    sys.exit(1 if faults else 0)


main()
