"""Draws a floor and the ways on it as one SVG file that needs nothing else: `./show PLAN PICTURE.svg` uses it.

Sizes are in pixels; a cell is as many as make the longer side of the floor about 1024. Ways that share a step are drawn
side by side: each keeps to the right of the cells' middle by the width of its lane.
"""
from html import escape
from textwrap import wrap

COLOURS = ["#0b6bb8", "#d4500b", "#0f8a5f", "#b5308f", "#6b4bc4", "#a67c00", "#0e8fa3", "#b3202e", "#4f7a12", "#6d4c3d"]
DASHES = ["", "9 4", "2 4", "14 4 2 4", "5 3", "1 3", "12 2"]
REFUSED = "#7d8590"
INK, PALE = "#1f2933", "#667180"
LEFT, TOP, RIGHT = 46, 86, 24
ROUND = (0.02, 0.05, 0.1, 0.2, 0.5, 1, 2, 5, 10, 20, 50, 100)     # lengths for the bar that shows the scale, in metres
CHIP = 9                # the radius of a number's disc
ROW = 19                # the height of a line of the list
STYLE = """
text { font-family: "Segoe UI", "Helvetica Neue", Arial, "DejaVu Sans", sans-serif; fill: %s; font-size: 12.5px }
.title { font-size: 19px; font-weight: 600 }
.pale { fill: %s }
.small { font-size: 10.5px }
.chip { font-size: 10.5px; font-weight: 700; text-anchor: middle }
.length { font-weight: 600; text-anchor: end }
.way { fill: none; stroke-linecap: round; stroke-linejoin: round }
""" % (INK, PALE)


def number(value):
    """A coordinate, short and the same everywhere."""
    return f"{value:.2f}".rstrip("0").rstrip(".")


def path(points):
    """A line through points."""
    return "M" + "L".join(f"{number(x)} {number(y)}" for x, y in points)


# the four edges of a cell, clockwise: the neighbour behind it, where it begins and where it ends
EDGES = [((0, -1), (0, 0), (1, 0)), ((1, 0), (1, 0), (1, 1)), ((0, 1), (1, 1), (0, 1)), ((-1, 0), (0, 1), (0, 0))]


def edges_of(blocked):
    """The edges between blocked cells and others, by where they begin; the blocked side is to the right."""
    edges = {}
    for column, row in sorted(blocked):
        for (dx, dy), (x, y), (to_x, to_y) in EDGES:
            if (column + dx, row + dy) not in blocked:
                edges.setdefault((column + x, row + y), []).append((column + to_x, row + to_y))
    return edges


def outline(blocked):
    """The same edges joined to closed lines, each the list of its corners."""
    edges = edges_of(blocked)
    while edges:
        first = place = next(iter(edges))
        line, heading = [], None
        while place in edges:
            # where two blocked cells touch at a corner, two lines meet: turn right, round one's own cell
            ends = sorted(edges[place], key=lambda end: turn(heading, (end[0] - place[0], end[1] - place[1])))
            to = ends[0]
            edges[place].remove(to)
            if not edges[place]:
                del edges[place]
            step = (to[0] - place[0], to[1] - place[1])
            if step != heading:
                line.append(place)
            place, heading = to, step
            if place == first:
                break
        yield line


def turn(before, after):
    """0 for a turn to the right, 1 for straight on, 2 for a turn to the left."""
    return 1 if before is None else 1 - (before[0] * after[1] - before[1] * after[0])


def lanes(ways):
    """For each way the least lane in which no earlier way has a step of it."""
    taken, given = [], []
    for way in ways:
        steps = {frozenset(step) for step in zip(way.cells, way.cells[1:])}
        lane = next((i for i, other in enumerate(taken) if not steps & other), len(taken))
        if lane == len(taken):
            taken.append(set())
        taken[lane] |= steps
        given.append(lane)
    return given


class Picture:
    """A picture in the making: its lines, and where things are on it."""

    def __init__(self, floor):
        self.floor = floor
        self.cell = max(7.0, min(36.0, 1024 / max(floor.width, floor.height)))
        self.wide, self.high = floor.width * self.cell, floor.height * self.cell
        self.broad = max(2.6, min(4.5, self.cell / 5))      # how broad a way is
        self.width = max(LEFT + self.wide + RIGHT, 640)
        self.lines = []

    def put(self, line):
        """One more line."""
        self.lines.append(line)

    def text(self, x, y, words, kind="", more=""):
        """Words at a place."""
        name = f' class="{kind}"' if kind else ""
        self.put(f'<text x="{number(x)}" y="{number(y)}"{name}{more}>{escape(words)}</text>')

    def middle(self, place):
        """The middle of a cell."""
        return LEFT + (place[0] + 0.5) * self.cell, TOP + (place[1] + 0.5) * self.cell

    def put_floor(self):
        """Aisles with a faint grid, racks, a frame, and the numbers of columns and rows."""
        cell, floor = self.cell, self.floor
        frame = f'x="{LEFT}" y="{TOP}" width="{number(self.wide)}" height="{number(self.high)}"'
        self.put(f'<rect {frame} fill="#fbfaf7"/>')
        for every, colour in ((1, "#efece5"), (10, "#dcd7cb")):
            rows, columns = range(0, floor.height + 1, every), range(0, floor.width + 1, every)
            across = "".join(f"M{LEFT} {number(TOP + row * cell)}h{number(self.wide)}" for row in rows)
            down = "".join(f"M{number(LEFT + column * cell)} {TOP}v{number(self.high)}" for column in columns)
            self.put(f'<path d="{across}{down}" stroke="{colour}" fill="none"/>')
        lines = [[(LEFT + x * cell, TOP + y * cell) for x, y in line] for line in outline(floor.blocked)]
        self.put(f'<path d="{"".join(path(line) + "Z" for line in lines)}" fill="#c9d0d8" stroke="#94a0ae" '
                 'stroke-linejoin="round" fill-rule="evenodd"/>')
        self.put(f'<rect {frame} fill="none" stroke="#5b6673" stroke-width="1.5"/>')
        every = 5 if cell >= 16 else 10
        for column in range(0, floor.width, every):
            self.text(self.middle((column, 0))[0], TOP - 7, str(column), "pale small", ' text-anchor="middle"')
        for row in range(0, floor.height, every):
            self.text(LEFT - 8, self.middle((0, row))[1] + 4, str(row), "pale small", ' text-anchor="end"')

    def points(self, way, shift):
        """The corners of a way, from start to goal, moved to the right of the walker by a shift."""
        corners = [way.cells[0]]
        for heading, count in way.legs:
            dx, dy = way.change(heading)
            corners.append((corners[-1][0] + dx * count, corners[-1][1] + dy * count))
        normals = []
        for heading, _ in way.legs:
            dx, dy = way.change(heading)
            long = (dx * dx + dy * dy) ** 0.5
            normals.append((-dy / long, dx / long))
        for i, corner in enumerate(corners):
            (ax, ay), (bx, by) = normals[max(i - 1, 0)], normals[min(i, len(normals) - 1)]
            part = shift / max(1 + ax * bx + ay * by, 0.5)
            x, y = self.middle(corner)
            yield x + part * (ax + bx), y + part * (ay + by)

    def put_way(self, way, colour, dash, shift):
        """A way with its turns; its words show where a pointer rests on it."""
        points = list(self.points(way, shift))
        line = f'<path class="way" d="{path(points)}"'
        dashes = f' stroke-dasharray="{dash}"' if dash else ""
        self.put(f"<g><title>{escape(way.said)}</title>")
        self.put(f'{line} stroke="#fff" stroke-width="{number(self.broad + 2.4)}" stroke-opacity=".85"/>')
        self.put(f'{line} stroke="{colour}" stroke-width="{number(self.broad)}"{dashes}/>')
        for x, y in points[1:-1]:
            self.put(f'<circle cx="{number(x)}" cy="{number(y)}" r="{number(self.broad * 0.36)}" fill="#fff"/>')
        for (x, y), (to_x, to_y) in zip(points, points[1:]):
            self.put_arrow(x, y, to_x, to_y, colour)
        self.put("</g>")

    def put_arrow(self, x, y, to_x, to_y, colour):
        """An arrowhead in the middle of a leg that is long enough."""
        long = ((to_x - x) ** 2 + (to_y - y) ** 2) ** 0.5
        if long < 4 * CHIP:
            return
        size = 2.6 + 0.9 * self.broad
        dx, dy = (to_x - x) / long * size, (to_y - y) / long * size
        x, y = (x + to_x) / 2, (y + to_y) / 2
        tip, back = (x + dx, y + dy), (x - dx / 2, y - dy / 2)
        head = path([tip, (x - dx - dy, y - dy + dx), back, (x - dx + dy, y - dy - dx)])
        self.put(f'<path d="{head}Z" fill="{colour}" stroke="#fff" stroke-width=".8"/>')

    def put_chip(self, x, y, words, colour, kind):
        """A number in a disc: filled for a start, a ring for a goal, a dashed ring for what is refused."""
        filled = kind == "start"
        dashes = ' stroke-dasharray="3 2"' if kind == "refused" else ""
        self.put(f'<circle cx="{number(x)}" cy="{number(y)}" r="{CHIP}" fill="{colour if filled else "#fff"}" '
                 f'stroke="{"#fff" if filled else colour}" stroke-width="{1.2 if filled else 2.2}"{dashes}/>')
        self.text(x, y + 3.8, words, "chip", f' style="fill: {"#fff" if filled else colour}"')

    def put_ends(self, ways, colours):
        """The starts and goals; several at one cell stand side by side, three at most and how many more."""
        at = {}
        for way in ways:
            for place, kind in ((way.start, "start"), (way.goal, "goal")):
                if self.floor.has(place) and (way.cells or way.points_at(kind)):
                    at.setdefault(place, []).append((way, kind if way.cells else "refused"))
        for place, chips in at.items():
            x, y = self.middle(place)
            shown = min(len(chips), 3 if len(chips) > 4 else 4)
            side = -1 if place[0] * 2 > self.floor.width and len(chips) > 1 else 1
            for i, (way, kind) in enumerate(chips[:shown]):
                self.put_chip(x + side * i * (2 * CHIP + 1), y, str(way.label), colours[way.label], kind)
            if shown < len(chips):
                self.text(x + side * (shown * (2 * CHIP + 1) - CHIP), y + 4, f"+{len(chips) - shown}", "small",
                          ' text-anchor="end"' if side < 0 else "")

    def put_scale(self):
        """A bar of a round number of metres, above the floor's right end."""
        metre = self.cell * 100 / self.floor.size
        metres = max(long for long in ROUND if long * metre <= 140)
        end = max(LEFT + self.wide, LEFT + 420)
        begin = end - metres * metre
        bar = path([(begin, 40), (begin, 46), (end, 46), (end, 40)])
        self.put(f'<path d="{bar}" fill="none" stroke="{PALE}" stroke-width="1.4"/>')
        self.text((begin + end) / 2, 36, f"{number(metres)} m", "pale small", ' text-anchor="middle"')

    def put_key(self, y):
        """What the discs mean, at the right end of a line."""
        x = self.width - RIGHT - 210
        for kind, words, long in (("start", "start", 64), ("goal", "goal", 62), ("refused", "refused", 0)):
            self.put_chip(x, y - 4, "1", PALE, kind)
            self.text(x + CHIP + 6, y, words, "pale small")
            x += long + 10

    def put_list(self, ways, colours):
        """The queries one under the other, with length and legs; gives back where the list ends."""
        y = TOP + self.high + 44
        ends, length, legs = LEFT + CHIP + 12, LEFT + 216, LEFT + 236
        self.text(ends, y, "column, row", "pale small")
        self.text(length, y, "length", "pale small", ' text-anchor="end"')
        self.text(legs, y, "legs", "pale small")
        self.put_key(y)
        room = int((self.width - legs - RIGHT) / 6.6)
        y += 4
        for way in ways:
            y += ROW + 3
            kind = "start" if way.legs is not None else "refused"
            self.put_chip(LEFT + CHIP - 8, y - 4, str(way.label), colours[way.label], kind)
            self.text(ends, y, f"{way.start[0]}, {way.start[1]} → {way.goal[0]}, {way.goal[1]}")
            self.text(length, y, way.metres, "length")
            for i, line in enumerate(shortened(way, room)):
                y += ROW - 3 if i else 0
                self.text(legs, y, line, "" if way.legs is not None else "pale")
        return y + 26


def shortened(way, room):
    """A way's words in lines of some room, three at most."""
    lines = wrap(way.words, room, break_on_hyphens=False)
    if len(lines) <= 3:
        return lines
    left = f" .. ({len(way.legs)} legs in all)"
    return lines[:2] + [lines[2][:room - len(left)].rsplit(",", 1)[0] + "," + left]


def svg(floor, ways, name):
    """The whole picture as text."""
    picture = Picture(floor)
    walked = [way for way in ways if way.cells]
    colours = {way.label: REFUSED for way in ways}
    colours.update({way.label: COLOURS[i % len(COLOURS)] for i, way in enumerate(walked)})
    lane = lanes(walked)
    apart = min(picture.broad + 0.6, 0.42 * picture.cell / max(lane + [1]))
    picture.text(LEFT, 36, name, "title")
    metres = [number(side * floor.size / 100) for side in (floor.width, floor.height)]
    size = f"{floor.width} × {floor.height} cells of {floor.size} cm, {metres[0]} m × {metres[1]} m"
    picture.text(LEFT, 57, size, "pale")
    picture.put_scale()
    picture.put_floor()
    for i, way in enumerate(walked):
        if way.legs:
            picture.put_way(way, colours[way.label], DASHES[i // len(COLOURS) % len(DASHES)], lane[i] * apart)
    picture.put_ends(ways, colours)
    high = picture.put_list(ways, colours)
    sides = f'width="{number(picture.width)}" height="{number(high)}"'
    begin = [f'<svg xmlns="http://www.w3.org/2000/svg" {sides} viewBox="0 0 {number(picture.width)} {number(high)}">',
             f"<title>{escape(name)}, {escape(size)}</title>", f"<style>{STYLE}</style>",
             '<rect width="100%" height="100%" fill="#fff"/>']
    return "\n".join([*begin, *picture.lines, "</svg>", ""])
