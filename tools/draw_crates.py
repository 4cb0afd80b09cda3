#!/usr/bin/env python3
"""Draws the crates of crates.txt, one above the other, into docs/crates.svg, and lists them by level in docs/CRATES.md.

An edge that follows from others is left out. `--check` writes nothing, and says whether drawing and list are up to date.
"""
import pathlib
import sys

ROOT = pathlib.Path(__file__).resolve().parent.parent
KIT = {"io", "libc", "os", "bytes", "check"}
FAMILIES = {"fill": "#dbeafe", "check": "#dcfce7", "route": "#fef3c7", "print": "#fae8ff", "try": "#fee2e2"}
BOX, TALL, ACROSS, DOWN, EDGE = 104, 26, 14, 62, 20


def read_crates():
    """Each crate with the crates that it names."""
    crates = {}
    for line in (ROOT / "crates.txt").read_text().splitlines():
        head, _, deps = line.partition("#")[0].partition(":")
        if head.strip():
            # words after the name say what is built of it, as `staticlib`
            crates[head.split()[0]] = [dep for dep in deps.split() if dep not in KIT]
    return crates


def all_below(crates):
    """Each crate with every crate below it."""
    below = {}

    def visit(name):
        if name not in below:
            below[name] = set()
            for dep in crates[name]:
                below[name] |= {dep} | visit(dep)
        return below[name]

    for name in crates:
        visit(name)
    return below


def needed_edges(crates, below):
    """Each crate with the crates directly below it: those that no other one of its crates leads to."""
    return {
        name: [dep for dep in deps if not any(dep in below[other] for other in deps if other != dep)]
        for name, deps in crates.items()
    }


def by_level(edges):
    """The crates level by level: each above all that it uses, and then just below the lowest that uses it."""
    level = {}

    def visit(name):
        if name not in level:
            level[name] = 1 + max((visit(dep) for dep in edges[name]), default=-1)
        return level[name]

    for name in edges:
        visit(name)
    for name in sorted(edges, key=level.get, reverse=True):
        level[name] = min((level[user] - 1 for user in edges if name in edges[user]), default=level[name])
    return [[n for n in edges if level[n] == k] for k in range(1 + max(level.values()))]


def set_in_order(levels, edges):
    """Orders each level by where its neighbours stand, there and back a few times, so that few lines cross."""
    for sweep in range(24):
        place = {n: (i + 0.5) / len(row) for row in levels for i, n in enumerate(row)}
        for row in levels if sweep % 2 == 0 else reversed(levels):
            def mean(name):
                near = edges[name] if sweep % 2 == 0 else [n for n in edges if name in edges[n]]
                return sum(place[n] for n in near) / len(near) if near else place[name]
            row.sort(key=mean)
            for i, name in enumerate(row):
                place[name] = (i + 0.5) / len(row)
    return levels


def draw(levels, edges):
    wide = max(len(row) for row in levels) * (BOX + ACROSS) + 2 * EDGE
    high = len(levels) * (TALL + DOWN) - DOWN + 2 * EDGE
    middle = {}
    for k, row in enumerate(levels):
        left = (wide - len(row) * (BOX + ACROSS) + ACROSS) / 2
        for i, name in enumerate(row):
            middle[name] = (left + i * (BOX + ACROSS) + BOX / 2, high - EDGE - TALL - k * (TALL + DOWN))
    parts = [
        f'<svg xmlns="http://www.w3.org/2000/svg" viewBox="0 0 {wide} {high}" width="{wide}" height="{high}" '
        'font-family="sans-serif" font-size="12">',
        f'<rect width="{wide}" height="{high}" fill="white"/>',
    ]
    for name in edges:
        for dep in edges[name]:
            (x, y), (x2, y2) = middle[name], middle[dep]
            parts.append(
                f'<path d="M{x:g} {y + TALL:g} C{x:g} {y + TALL + 30:g} {x2:g} {y2 - 30:g} {x2:g} {y2:g}" '
                'fill="none" stroke="#94a3b8"/>'
            )
    for name, (x, y) in middle.items():
        colour = FAMILIES.get(name.split("_")[0], "#f1f5f9") if "_" in name else "#f1f5f9"
        parts.append(f'<rect x="{x - BOX / 2:g}" y="{y:g}" width="{BOX}" height="{TALL}" rx="5" fill="{colour}" stroke="#475569"/>')
        parts.append(f'<text x="{x:g}" y="{y + 17:g}" text-anchor="middle">{name}</text>')
    return "\n".join(parts + ["</svg>", ""])


def listed(levels, edges):
    lines = ["| level | crate | directly above |", "|---|---|---|"]
    for k, row in enumerate(levels):
        for name in row:
            lines.append(f"| {k} | `{name}` | {', '.join(f'`{dep}`' for dep in edges[name])} |")
    return "\n".join(lines)


def main():
    crates = read_crates()
    edges = needed_edges(crates, all_below(crates))
    levels = set_in_order(by_level(edges), edges)
    page = ROOT / "docs/CRATES.md"
    begin, end = "<!-- by tools/draw_crates.py -->\n", "<!-- end -->"
    text = page.read_text()
    head, _, rest = text.partition(begin)
    made = {
        ROOT / "docs/crates.svg": draw(levels, edges),
        page: head + begin + listed(levels, edges) + "\n" + end + rest.partition(end)[2],
    }
    stale = [path for path, new in made.items() if not path.exists() or path.read_text() != new]
    if "--check" in sys.argv:
        for path in stale:
            print(f"{path.relative_to(ROOT)} is not up to date: python3 tools/draw_crates.py")
        sys.exit(1 if stale else 0)
    for path in stale:
        path.write_text(made[path])


main()
