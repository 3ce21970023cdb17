#!/usr/bin/env python3
"""Draws docs/crates.svg from crates.txt: each crate stands above all that it cites, and an arrow leads to what it cites
where no other arrow leads there already.

    tools/draw-crates.py            draws the picture
    tools/draw-crates.py --check    fails where the picture in the repository is another
"""
import pathlib
import sys

ROOT = pathlib.Path(__file__).resolve().parent.parent
PICTURE = ROOT / "docs" / "crates.svg"
WIDTH, HEIGHT, GAP_X, GAP_Y, MARGIN, BEND = 116, 30, 14, 44, 20, 2


def cited_by_crate():
    """what each listed crate cites, the kit's libraries left out; a static library has the word behind its name"""
    lines = [line for line in (ROOT / "crates.txt").read_text().splitlines() if line and not line.startswith("#")]
    cited = {name.split()[0]: rest.split() for name, rest in (line.split(":") for line in lines)}
    return {name: [dep for dep in deps if dep in cited] for name, deps in cited.items()}


def reached(cited, name):
    """all that a crate stands on"""
    below = set(cited[name])
    return below.union(*(reached(cited, dep) for dep in cited[name]))


def height(cited, name):
    return 1 + max((height(cited, dep) for dep in cited[name]), default=-1)


def arrows(cited):
    """what a crate cites and nothing else that it cites stands on"""
    for name, deps in cited.items():
        through = set().union(*(reached(cited, dep) for dep in deps))
        yield from ((name, dep) for dep in deps if dep not in through)


def routes(cited):
    """each arrow as the stops that it makes, one on each level from a crate down to what it cites; between the two it passes bends"""
    for name, dep in arrows(cited):
        at, end = height(cited, name), height(cited, dep)
        yield [name, *((name, dep, level) for level in range(at - 1, end, -1)), dep]


def level_of(cited, stop):
    return height(cited, stop) if isinstance(stop, str) else stop[2]


def rows_of(cited, lines):
    """the stops of each level from the lowest up, in an order in which each is near the middle of those that it is joined to"""
    rows = {}
    for stop in dict.fromkeys([*cited, *(stop for line in lines for stop in line)]):
        rows.setdefault(level_of(cited, stop), []).append(stop)
    joined = {stop: [] for row in rows.values() for stop in row}
    for line in lines:
        for upper, lower in zip(line, line[1:]):
            joined[upper].append(lower)
            joined[lower].append(upper)
    for sweep in range(24):
        for at in sorted(rows, reverse=sweep % 2 == 1):
            place = {stop: k / len(row) for row in rows.values() for k, stop in enumerate(row)}
            rows[at].sort(key=lambda stop: sum(map(place.get, joined[stop])) / len(joined[stop]) if joined[stop] else place[stop])
    return [rows[at] for at in sorted(rows)], joined


def breadth(stop):
    return WIDTH if isinstance(stop, str) else BEND


def spread(row, wish):
    """the middle of each stop of a row, as near to its wish as the order and the gaps allow"""
    middle = {}
    edge = 0
    for stop in row:
        middle[stop] = max(wish[stop], edge + breadth(stop) / 2)
        edge = middle[stop] + breadth(stop) / 2 + GAP_X
    edge = max(edge - GAP_X, max(wish[stop] + breadth(stop) / 2 for stop in row))
    for stop in reversed(row):
        middle[stop] = min(middle[stop], max(wish[stop], 0) + BEND, edge - breadth(stop) / 2)
        edge = middle[stop] - breadth(stop) / 2 - GAP_X
    return middle


def middles(rows, joined):
    """where each stop stands from left to right: several times over, each is drawn towards what it is joined to"""
    widest = max(sum(breadth(stop) + GAP_X for stop in row) for row in rows)
    middle = {}
    for row in rows:
        step = widest / len(row)
        middle.update(spread(row, {stop: (k + 0.5) * step for k, stop in enumerate(row)}))
    for sweep in range(12):
        for row in rows if sweep % 2 else rows[::-1]:
            wish = {stop: sum(map(middle.get, joined[stop])) / len(joined[stop]) if joined[stop] else middle[stop] for stop in row}
            middle.update(spread(row, wish))
    left = min(middle[stop] - breadth(stop) / 2 for stop in middle)
    return {stop: round(MARGIN + middle[stop] - left) for stop in middle}


def drawn(cited):
    lines = list(routes(cited))
    rows, joined = rows_of(cited, lines)
    middle = middles(rows, joined)
    tall = 2 * MARGIN + len(rows) * (HEIGHT + GAP_Y) - GAP_Y
    top = {stop: tall - MARGIN - HEIGHT - at * (HEIGHT + GAP_Y) for at, row in enumerate(rows) for stop in row}
    width = max(middle[stop] + breadth(stop) // 2 for stop in middle) + MARGIN
    out = [
        f'<svg xmlns="http://www.w3.org/2000/svg" width="{width}" height="{tall}" font-family="sans-serif" font-size="13">',
        "<title>The crates: each stands above all that it cites</title>",
        '<defs><marker id="tip" markerWidth="8" markerHeight="8" refX="7" refY="4" orient="auto">'
        '<path d="M0,0 L8,4 L0,8 z" fill="#555"/></marker></defs>',
        f'<rect width="{width}" height="{tall}" fill="white"/>',
    ]
    for name, *bends, dep in lines:
        points = [(middle[name], top[name] + HEIGHT)]
        points += [(middle[bend], top[bend] + down) for bend in bends for down in (0, HEIGHT)]
        points.append((middle[dep], top[dep]))
        path = " ".join(f"{x},{y}" for x, y in points)
        out.append(f'<polyline points="{path}" fill="none" stroke="#555" marker-end="url(#tip)"/>')
    for name in cited:
        x, y = middle[name] - WIDTH // 2, top[name]
        out.append(f'<rect x="{x}" y="{y}" width="{WIDTH}" height="{HEIGHT}" rx="4" fill="#eef3f8" stroke="#345"/>')
        out.append(f'<text x="{middle[name]}" y="{y + 20}" text-anchor="middle">{name}</text>')
    return "\n".join([*out, "</svg>", ""])


picture = drawn(cited_by_crate())
if sys.argv[1:] == ["--check"]:
    if not PICTURE.exists() or PICTURE.read_text() != picture:
        sys.exit(f"draw-crates: {PICTURE.relative_to(ROOT)} is not what crates.txt gives")
    print("draw-crates: the picture is as drawn")
else:
    PICTURE.write_text(picture)
