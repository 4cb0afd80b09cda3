#!/usr/bin/env python3
"""Makes the plans that the program crate ways_runs is run on, with what "ways" prints for each, and the samples: a
warehouse with loading bays, the worked example, and what "ways" prints for them and for samples/warehouse.plan, which
`./plan` makes of its drawing.

    python3 tools/make_runs.py          writes crates/ways_runs/data, args and stdout, and samples/
    python3 tools/make_runs.py --check  compares them with what stands there, and writes nothing

The expected text is computed here, by a reader of plans and a route finder of its own: Dijkstra's algorithm from the goal over pairs of straight
and diagonal steps, compared as exact numbers. Nothing of it comes from the Rattle code.
"""
import heapq
import math
import random
import struct
import sys
from functools import total_ordering
from pathlib import Path

ROOT = Path(__file__).resolve().parent.parent
HEADINGS = [(0, -1), (1, -1), (1, 0), (1, 1), (0, 1), (-1, 1), (-1, 0), (-1, -1)]


# Plans

def record(kind, content):
    return struct.pack("<HH", len(content), kind) + content


def map_bytes(width, height, blocked):
    """The map's bytes: in each, bit 0 is the leftmost of its eight cells."""
    each = (width + 7) // 8
    rows = [[0] * each for _ in range(height)]
    for column, row in blocked:
        rows[row][column // 8] |= 1 << (column % 8)
    return bytes(byte for row in rows for byte in row)


def floor_record(width, height):
    return record(1, struct.pack("<HH", width, height))


def query_record(query):
    return record(4, struct.pack("<HHHH", *query))


def plan(width, height, cells, size, queries):
    """A plan; cells are the map's bytes, or the blocked places."""
    content = cells if isinstance(cells, bytes) else map_bytes(width, height, cells)
    return (floor_record(width, height) + record(2, content) + record(3, struct.pack("<H", size))
            + b"".join(query_record(q) for q in queries))


# What is printed

def read(data):
    """A sound plan's contents, or the offset of the break."""
    at = 0

    def next_record(kind, length):
        nonlocal at
        if len(data) - at < 4:
            return None
        size, found = struct.unpack_from("<HH", data, at)
        if len(data) - at - 4 < size or found != kind or (length is not None and size != length):
            return None
        content = data[at + 4:at + 4 + size]
        at += 4 + size
        return content

    floor = next_record(1, 4)
    if floor is None:
        return at
    cells = next_record(2, None)
    if cells is None:
        return at
    size = next_record(3, 2)
    if size is None:
        return at
    queries = []
    while at < len(data):
        query = next_record(4, 8) if len(queries) < 64 else None
        if query is None:
            return at
        queries.append(struct.unpack("<HHHH", query))
    return struct.unpack("<HH", floor) + (cells, struct.unpack("<H", size)[0], queries)


def shorter(p, q):
    """Whether p + q√2 is below 0."""
    if p <= 0 and q <= 0:
        return (p, q) != (0, 0)
    if p >= 0 and q >= 0:
        return False
    return p * p > 2 * q * q if p < 0 else p * p < 2 * q * q


@total_ordering
class Length:
    def __init__(self, straight, diagonal):
        self.pair = (straight, diagonal)

    def __eq__(self, other):
        return self.pair == other.pair

    def __lt__(self, other):
        return shorter(self.pair[0] - other.pair[0], self.pair[1] - other.pair[1])

    def plus(self, heading):
        straight, diagonal = self.pair
        return Length(straight + 1, diagonal) if heading % 2 == 0 else Length(straight, diagonal + 1)


class Floor:
    def __init__(self, width, height, cells):
        self.width, self.height, self.cells = width, height, cells

    def set_bit(self, column, row):
        return self.cells[row * ((self.width + 7) // 8) + column // 8] >> (column % 8) & 1 == 1

    def on(self, place):
        return 0 <= place[0] < self.width and 0 <= place[1] < self.height

    def open(self, place):
        return self.on(place) and not self.set_bit(*place)

    def step(self, place, heading):
        """Where a permitted step leads, or None."""
        dx, dy = HEADINGS[heading]
        x, y = place
        corners = [(x + dx, y + dy), (x + dx, y), (x, y + dy), (x, y)]
        return (x + dx, y + dy) if all(self.open(c) for c in corners) else None

    def lengths(self, goal):
        """The shortest length from each cell to the goal: steps can be walked back."""
        best = {goal: Length(0, 0)}
        heap = [(Length(0, 0), goal)]
        settled = set()
        while heap:
            length, place = heapq.heappop(heap)
            if place in settled:
                continue
            settled.add(place)
            for heading in range(8):
                to = self.step(place, heading)
                if to is None:
                    continue
                sum_ = length.plus(heading)
                if to not in best or sum_ < best[to]:
                    best[to] = sum_
                    heapq.heappush(heap, (sum_, to))
        return best


def legs_of(floor, best, start, goal):
    legs, place = [], start
    while place != goal:
        for heading in range(8):
            to = floor.step(place, heading)
            if to is not None and to in best and best[to].plus(heading) == best[place]:
                break
        if legs and legs[-1][0] == heading:
            legs[-1][1] += 1
        else:
            legs.append([heading, 1])
        place = to
    return legs


def centimetres(size, length):
    m = size * length.pair[1]
    return size * length.pair[0] + (math.isqrt(8 * m * m) + 1) // 2


def answer(floor, size, query, tables):
    start, goal = query[:2], query[2:]
    for number, holds in [(5, not floor.on(start)), (6, not floor.on(goal)), (7, lambda: not floor.open(start)), (8, lambda: not floor.open(goal))]:
        if holds() if callable(holds) else holds:
            return [number]
    if goal not in tables:
        tables[goal] = floor.lengths(goal)
    best = tables[goal]
    if start not in best:
        return [9]
    legs = legs_of(floor, best, start, goal)
    assert len(legs) <= 16383
    return [0, *best[start].pair, centimetres(size, best[start]), len(legs), *(n for leg in legs for n in leg)]


def refusal(width, height, cells, size):
    """1, 2, 3 or 13, the first that holds, or 0."""
    if not (1 <= width <= 128 and 1 <= height <= 128):
        return 1
    each = (width + 7) // 8
    if len(cells) != height * each:
        return 2
    floor = Floor(width, height, cells)
    if any(floor.set_bit(column, row) for row in range(height) for column in range(width, 8 * each)):
        return 3
    return 0 if 1 <= size <= 1000 else 13


def printed(data):
    if len(data) > 4096:
        return "14 4096\n"
    found = read(data)
    if isinstance(found, int):
        return f"14 {found}\n"
    width, height, cells, size, queries = found
    number = refusal(width, height, cells, size)
    if number:
        return f"{number}\n"
    floor, tables = Floor(width, height, cells), {}
    lines = [f"floor {width} {height} {size}"]
    for i, query in enumerate(queries):
        lines.append(" ".join(map(str, [i + 1, *answer(floor, size, query, tables)])))
    return "".join(line + "\n" for line in lines)


# The plans to run

EXAMPLE = plan(5, 3, bytes([0, 4, 0]), 50, [(0, 1, 4, 1), (0, 1, 2, 1)])
OPEN_QUERY = (0, 0, 3, 2)


def random_floor(seed, width, height, share):
    source = random.Random(seed)
    blocked = [(x, y) for y in range(height) for x in range(width) if source.random() < share]
    places = [(source.randrange(width), source.randrange(height)) for _ in range(12)]
    return plan(width, height, blocked, 75, [places[i] + places[i + 1] for i in range(0, 12, 2)])


def serpentine():
    """Corridors one cell wide over the whole of the largest floor, joined at alternate ends."""
    blocked = [(x, y) for y in range(1, 128, 2) for x in range(128) if x != (127 if y % 4 == 1 else 0)]
    return plan(128, 128, blocked, 1000, [(0, 0, 0, 126), (0, 126, 0, 0), (5, 64, 5, 64)])


def stairs():
    """Single blocked cells on a grid, so that a way turns often."""
    blocked = [(x, y) for y in range(128) for x in range(128) if (x % 2 == 1 and y % 4 == 1) or (x % 2 == 0 and y % 4 == 3 and x % 16)]
    return plan(128, 128, blocked, 33, [(0, 0, 126, 126), (126, 0, 0, 124), (2, 126, 124, 2)])


def runs():
    good = plan(5, 3, bytes([0, 4, 0]), 50, [])
    floor8, map15 = good[:8], good[:15]
    query = query_record(OPEN_QUERY)
    return [
        ("example", EXAMPLE),
        ("empty", b""),
        ("break-header-cut", floor8[:3]),
        ("break-floor-kind", record(2, floor8[4:])),
        ("break-floor-length", record(1, floor8[4:] + b"\0")),
        ("break-floor-cut", floor8[:7]),
        ("break-map-missing", floor8),
        ("break-map-kind", floor8 + record(3, b"\0\4\0")),
        ("break-map-cut", map15[:14]),
        ("break-size-missing", map15),
        ("break-size-kind", map15 + record(4, b"\x32\0")),
        ("break-size-length", map15 + record(3, b"\x32\0\0")),
        ("break-size-cut", good[:20]),
        ("break-query-kind", good + query + record(5, query[4:])),
        ("break-query-length", good + query + record(4, query[4:] + b"\0")),
        ("break-query-cut", good + query + query + query[:11]),
        ("break-after-queries", good + query + b"\0"),
        ("bytes-4096", plan(5, 3, bytes(4078), 50, [])),
        ("bytes-4097", plan(5, 3, bytes(4079), 50, [])),
        ("queries-0", good),
        ("queries-64", good + query * 64),
        ("queries-65", good + query * 65),
        ("refused-1-width-0", plan(0, 3, b"", 50, [OPEN_QUERY])),
        ("refused-1-width-129", plan(129, 1, bytes(17), 50, [OPEN_QUERY])),
        ("refused-1-height-0", plan(5, 0, b"", 50, [])),
        ("refused-1-height-129", plan(5, 129, bytes(129), 50, [])),
        ("refused-2", plan(5, 3, bytes(4), 50, [OPEN_QUERY])),
        ("refused-3", plan(9, 1, bytes([0, 2]), 50, [])),
        ("refused-13-size-0", plan(5, 3, bytes(3), 0, [OPEN_QUERY])),
        ("refused-13-size-1001", plan(5, 3, bytes(3), 1001, [])),
        ("refused-3-not-13", plan(9, 1, bytes([0, 2]), 0, [])),
        ("size-1-and-1000", plan(5, 3, bytes(3), 1000, [OPEN_QUERY])),
        ("queries-refused-5-to-9", plan(4, 2, [(1, 0), (2, 0), (2, 1)], 50, [
            (4, 0, 9, 9), (0, 2, 1, 0), (0, 0, 4, 0), (1, 0, 0, 2), (1, 0, 2, 0), (0, 0, 1, 0), (0, 0, 3, 0), (0, 0, 0, 1)])),
        ("start-is-goal", plan(3, 1, bytes([2]), 50, [(0, 0, 0, 0), (2, 0, 2, 0), (0, 0, 2, 0)])),
        ("one-row", plan(128, 1, [], 1, [(0, 0, 127, 0), (127, 0, 0, 0), (3, 0, 3, 0)])),
        ("one-column", plan(1, 128, [], 999, [(0, 0, 0, 127), (0, 127, 0, 0), (0, 5, 0, 4)])),
        ("one-cell", plan(1, 1, [], 7, [(0, 0, 0, 0), (1, 0, 0, 0)])),
        ("width-7", random_floor(7, 7, 9, 0.25)),
        ("width-8", random_floor(8, 8, 9, 0.25)),
        ("width-9", random_floor(9, 9, 8, 0.25)),
        ("width-127", random_floor(127, 127, 30, 0.2)),
        ("width-128", random_floor(128, 128, 128, 0.2)),
        ("serpentine", serpentine()),
        ("stairs", stairs()),
    ]


def bays():
    """60 × 40 cells of 50 cm: racks two cells wide along aisles of two, with cross aisles, and a wall with doors before the loading bays."""
    blocked = set()
    for x in range(4, 56, 4):
        for y in range(4, 30):
            if y not in (12, 13, 21, 22):
                blocked |= {(x, y), (x + 1, y)}
    for x in range(60):
        if x % 15 not in (6, 7, 8):
            blocked.add((x, 33))
    return plan(60, 40, sorted(blocked), 50, [
        (7, 38, 6, 4), (7, 38, 55, 17), (22, 36, 30, 9), (52, 39, 2, 2), (6, 10, 38, 27), (58, 1, 8, 10)])


def main():
    check = sys.argv[1:] == ["--check"]
    crate = ROOT / "crates" / "ways_runs"
    plans = runs()
    files = {crate / "data" / name: data for name, data in plans}
    files[crate / "args"] = "".join(name + "\n" for name, _ in plans).encode()
    files[crate / "stdout"] = "".join(f"{name}\n{printed(data)}" for name, data in plans).encode()
    samples = {"bays": bays(), "example": EXAMPLE, "warehouse": (ROOT / "samples" / "warehouse.plan").read_bytes()}
    for name, data in samples.items():
        files[ROOT / "samples" / f"{name}.plan"] = data
        files[ROOT / "samples" / f"{name}.out"] = printed(data).encode()
    for path, data in files.items():
        if check:
            if not path.is_file() or path.read_bytes() != data:
                sys.exit(f"{path}: not as made here")
        else:
            path.parent.mkdir(parents=True, exist_ok=True)
            path.write_bytes(data)
    print(f"{len(plans)} plans")


main()
