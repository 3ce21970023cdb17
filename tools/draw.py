#!/usr/bin/env python3
"""Draws docs/pictures/*.svg from the register texts and command texts of examples/.

    tools/draw.py            draws every picture that docs/pictures/pictures.txt lists
    tools/draw.py --check    draws them into a temporary folder and fails where docs/pictures differs

A picture shows offices as boxes, grants as arrows with their permission, the cut as a thick line, records removed as dashed arrows
and records added as wide ones. Nothing in it is typed by hand: the register before and the commands are read from a program
input, the register after and the tallies from the program's output for it.
"""
import math
import pathlib
import sys
import tempfile

ROOT = pathlib.Path(__file__).resolve().parent.parent
PICTURES = ROOT / "docs" / "pictures"

INK = "#222222"
GONE = "#8a8a8a"
NEW = "#0b5fa5"
CUT = "#c01818"
FONT = "font-family=\"DejaVu Sans, Verdana, sans-serif\""

STAYS, REMOVED, ADDED = "stays", "removed", "added"


# ---- reading ---------------------------------------------------------------------------------------------------------------


class Lines:
    """The lines of a text, taken one by one; a line that is not of the form stops the drawing."""

    def __init__(self, path):
        self.path = path
        text = path.read_text(encoding="ascii")
        assert text.endswith("\n"), f"{path}: the last line has no end"
        self.left = text.split("\n")[:-1]

    def next_key(self):
        return self.left[0].split("=")[0] if self.left else ""

    def take(self, key):
        line = self.left.pop(0) if self.left else ""
        assert line.startswith(key + "="), f"{self.path}: '{line}' stands where {key}= is due"
        return line[len(key) + 1 :]

    def number(self, key):
        return int(self.take(key))


def read_register(lines):
    """(n, soa, records) of a register text; a record is (by, to, perm)"""
    n, soa = lines.number("n"), lines.number("soa")
    lines.number("layer")
    records = []
    while lines.next_key() == "by":
        records.append((lines.number("by"), lines.number("to"), lines.take("perm")))
    assert lines.take("end") == "register"
    return n, soa, records


def read_commands(lines):
    """(act, by, to, perm) of each command text"""
    commands = []
    while lines.left:
        act = lines.take("act")
        lines.number("layer")
        commands.append((act, lines.number("by"), lines.number("to"), lines.take("perm")))
    return commands


def read_answers(lines):
    """(answer, removed, added) of each command"""
    answers = []
    while lines.next_key() == "answer":
        answers.append((lines.number("answer"), lines.number("removed"), lines.number("added")))
    return answers


def read_names(path):
    """office number to name, one a line"""
    return {int(number): name for number, name in (line.split(" ", 1) for line in path.read_text(encoding="ascii").splitlines())}


# ---- placing ---------------------------------------------------------------------------------------------------------------
#
# Everything is placed along the flow (from SOA on) and across it. A tall picture flows down, a wide one to the right; only the
# last step, writing, turns the one into the other.


class Shape:
    def __init__(self, tall, longest_name):
        self.tall = tall
        if tall:
            self.half_along, self.half_across = 16, 30
            self.layer_gap, self.box_gap = 104, 88
        else:
            self.half_along, self.half_across = max(30, round(longest_name * 3.4) + 8), 14
            self.layer_gap, self.box_gap = 2 * self.half_along + 124, 30

    def xy(self, point):
        along, across = point
        return (across, along) if self.tall else (along, across)


def layers_of(n, soa, drawn, before, after):
    """The offices by fewest links from SOA. The register before decides, so that all cuts of one map are drawn on one plan."""
    layer = {soa: 0}
    for records in (before, before | after):
        frontier = sorted(layer)
        while frontier:
            reached = sorted({to for by, to, _ in records if by in frontier and to not in layer})
            for office in reached:
                layer[office] = 1 + min(layer[by] for by, to, _ in records if to == office and by in layer)
            frontier = reached
    unreached = max(layer.values()) + 1
    plan = {}
    for office in range(n):
        if office in drawn:
            plan.setdefault(layer.get(office, unreached), []).append(office)
    return [plan[key] for key in sorted(plan)]


def spread(wanted, gap):
    """Places as near to the wanted ones as can be, in their order and at least so far apart (pools of neighbours that push)."""
    pools = []
    for index, place in enumerate(wanted):
        pools.append([place - index * gap, 1])
        while len(pools) > 1 and pools[-2][0] >= pools[-1][0]:
            last, size = pools.pop()
            pools[-1] = [(pools[-1][0] * pools[-1][1] + last * size) / (pools[-1][1] + size), pools[-1][1] + size]
    flat = [place for place, size in pools for _ in range(size)]
    return [place + index * gap for index, place in enumerate(flat)]


def place(layers, links, shape):
    """office to (along, across): each office near the middle of those it is linked with, the order changed where that helps"""
    step = 2 * shape.half_across + shape.box_gap
    depth = {office: k for k, offices in enumerate(layers) for office in offices}
    across = {office: float(step * k) for offices in layers for k, office in enumerate(offices)}

    def middle(office, later):
        near = [other for link in links for office_, other in (link, link[::-1]) if office_ == office]
        near = [other for other in near if (depth[other] > depth[office] if later else depth[other] < depth[office])]
        return sum(across[other] for other in near) / len(near) if near else across[office]

    for later in (False, True, False, True, False):
        for offices in layers[::-1] if later else layers:
            wanted = {office: middle(office, later) for office in offices}
            offices.sort(key=lambda office: (round(wanted[office], 3), office))
            across.update(zip(offices, spread([wanted[office] for office in offices], step)))
    least = min(across.values())
    return {office: (float(depth[office] * shape.layer_gap), round(across[office] - least, 1)) for office in depth}, depth


# ---- arrows ----------------------------------------------------------------------------------------------------------------


class Arrow:
    """The records of one cell that share a fate; path is a list of cubic pieces, each of four points"""

    def __init__(self, by, to, fate, perms):
        self.by, self.to, self.fate, self.perms = by, to, fate, perms
        self.path = []
        self.cut = False

    def label(self):
        sign = {STAYS: "", REMOVED: "− ", ADDED: "+ "}[self.fate]
        return sign + " ".join(self.perms)

    def at(self, t):
        """the point at the part t of the way, each piece taken as long as any other"""
        where = t * len(self.path)
        k = min(int(where), len(self.path) - 1)
        return on_cubic(self.path[k], where - k)


def on_cubic(piece, t):
    a, b, c, d = piece
    s = 1 - t
    return tuple(s * s * s * a[k] + 3 * s * s * t * b[k] + 3 * s * t * t * c[k] + t * t * t * d[k] for k in (0, 1))


def along_flow(a, b):
    """a piece that leaves a and reaches b along the flow"""
    reach = (b[0] - a[0]) / 2
    return (a, (a[0] + reach, a[1]), (b[0] - reach, b[1]), b)


def straight(a, b):
    return (a, tuple((2 * a[k] + b[k]) / 3 for k in (0, 1)), tuple((a[k] + 2 * b[k]) / 3 for k in (0, 1)), b)


def arrows_of(before, after, drawn):
    fates = {}
    order = ["TT", "TF", "FT", "FF"]
    for record in sorted(before | after, key=lambda r: (r[0], r[1], order.index(r[2]))):
        by, to, perm = record
        fate = STAYS if record in before and record in after else REMOVED if record in before else ADDED
        if by in drawn and to in drawn:
            fates.setdefault((by, to, fate), []).append(perm)
    return [Arrow(by, to, fate, perms) for (by, to, fate), perms in sorted(fates.items())]


def route(arrows, places, depth, shape):
    """Gives every arrow its path. No two arrows leave or enter a box at one point: the ports of a side stand in the order of the
    offices that they lead to, so that arrows side by side stay so."""
    fates = [STAYS, REMOVED, ADDED]
    neighbours = {}
    for offices in by_depth(depth, places):
        for a, b in zip(offices, offices[1:]):
            if places[b][1] - places[a][1] - 2 * shape.half_across >= 50:
                neighbours[(a, b)] = neighbours[(b, a)] = True

    # past the boxes of the layers between, through the gap that lies nearest to the straight line; arrows that share a gap go
    # side by side in the order of the offices that they lead to
    sharers = {}
    for arrow in arrows:
        a, b = depth[arrow.by], depth[arrow.to]
        for k in range(a + 1, b) if a < b else range(a - 1, b, -1):
            gap = nearest_gap(k, places[arrow.by], places[arrow.to], places, depth, shape)
            sharers.setdefault((k, gap), []).append((places[arrow.to][1], arrow.by, arrow.to, fates.index(arrow.fate), arrow))
    passes = {id(arrow): [] for arrow in arrows}
    for (k, gap), entries in sorted(sharers.items(), key=lambda item: item[0]):
        entries.sort(key=lambda entry: entry[:4])
        for nth, entry in enumerate(entries):
            passes[id(entry[4])].append((k, gap + 12 * (nth - (len(entries) - 1) / 2)))
    for arrow in arrows:
        passes[id(arrow)].sort(reverse=depth[arrow.to] < depth[arrow.by])

    ports = {}
    for arrow in arrows:
        if (arrow.by, arrow.to) in neighbours:
            continue
        ahead = depth[arrow.to] > depth[arrow.by]
        beside = depth[arrow.to] == depth[arrow.by]
        by_way = [places[arrow.by][1]] + [gap for _, gap in passes[id(arrow)]] + [places[arrow.to][1]]
        for office, towards, front in ((arrow.by, by_way[1], ahead or beside), (arrow.to, by_way[-2], not ahead)):
            ports.setdefault((office, front), []).append((towards, fates.index(arrow.fate), arrow.by, arrow.to, arrow))
    port = {}
    for (office, front), entries in ports.items():
        entries.sort(key=lambda entry: entry[:4])
        apart = min(18, (2 * shape.half_across - 8) / len(entries))
        for k, entry in enumerate(entries):
            along, across = places[office]
            offset = (k - (len(entries) - 1) / 2) * apart
            port[(id(entry[4]), office)] = (along + (shape.half_along if front else -shape.half_along), across + offset)

    side = {}
    for arrow in arrows:
        if (arrow.by, arrow.to) in neighbours:
            # boxes side by side: straight from one to the other, several arrows one above the other
            forth = 1 if places[arrow.to][1] > places[arrow.by][1] else -1
            pair = (min(arrow.by, arrow.to), max(arrow.by, arrow.to))
            nth = side.setdefault(pair, 0)
            side[pair] += 1
            shift = (0, 12, -12)[nth] if nth < 3 else 0
            a = (places[arrow.by][0] + shift, places[arrow.by][1] + forth * shape.half_across)
            b = (places[arrow.to][0] + shift, places[arrow.to][1] - forth * shape.half_across)
            arrow.path = [straight(a, b)]
            continue
        a, b = port[(id(arrow), arrow.by)], port[(id(arrow), arrow.to)]
        if depth[arrow.to] == depth[arrow.by]:
            bulge = shape.layer_gap * 0.2 + abs(b[1] - a[1]) * 0.15
            arrow.path = [(a, (a[0] + bulge, a[1]), (b[0] + bulge, b[1]), b)]
            continue
        points = [a]
        for k, gap in passes[id(arrow)]:
            forth = shape.half_along if b[0] > a[0] else -shape.half_along
            points += [(k * shape.layer_gap - forth, gap), (k * shape.layer_gap + forth, gap)]
        points.append(b)
        arrow.path = [along_flow(p, q) if p[1] != q[1] else straight(p, q) for p, q in zip(points, points[1:])]


def by_depth(depth, places):
    layers = {}
    for office, k in depth.items():
        layers.setdefault(k, []).append(office)
    return [sorted(layers[k], key=lambda office: places[office][1]) for k in sorted(layers)]


def nearest_gap(k, a, b, places, depth, shape):
    edge = shape.half_across + (30 if shape.tall else 12)
    boxes = sorted(places[office][1] for office in depth if depth[office] == k)
    gaps = [boxes[0] - edge, boxes[-1] + edge]
    gaps += [(low + high) / 2 for low, high in zip(boxes, boxes[1:]) if high - low >= 2 * edge]
    line = a[1] + (b[1] - a[1]) * (k * shape.layer_gap - a[0]) / (b[0] - a[0])
    return min(gaps, key=lambda gap: (abs(gap - line), gap))


# ---- labels ----------------------------------------------------------------------------------------------------------------


def label_half(arrow):
    return 3.8 * len(arrow.label()) + 1


def overlap(a, b):
    """the area that two boxes (left, top, right, bottom) share"""
    return max(0, min(a[2], b[2]) - max(a[0], b[0])) * max(0, min(a[3], b[3]) - max(a[1], b[1]))


def label_places(arrows, boxes, bars, shape):
    """arrow to the middle of its label, and whether that stands on the arrow: beside it if it can, where it covers the least of boxes,
    cuts, labels and other arrows"""
    samples = {id(arrow): [shape.xy(arrow.at(k / 120)) for k in range(121)] for arrow in arrows}
    placed, result = [], {}
    for arrow in arrows:
        half = label_half(arrow)
        best = None
        for rank, t in enumerate((0.5, 0.42, 0.58, 0.34, 0.66, 0.26, 0.74, 0.18, 0.82)):
            x, y = shape.xy(arrow.at(t))
            x0, y0 = shape.xy(arrow.at(t - 0.02))
            x1, y1 = shape.xy(arrow.at(t + 0.02))
            length = math.sqrt((x1 - x0) * (x1 - x0) + (y1 - y0) * (y1 - y0)) or 1.0
            normal = (-(y1 - y0) / length, (x1 - x0) / length)
            for turn in (1, -1, 0):
                away = abs(normal[0]) * (half + 5) + abs(normal[1]) * 11
                cx, cy = x + turn * normal[0] * away, y + turn * normal[1] * away
                frame = (cx - half, cy - 8, cx + half, cy + 8)
                # on the arrow itself only where there is no room beside it
                cost = 3 * rank + (1, 120, 0)[turn + 1]
                cost += 4 * sum(overlap(frame, box) for box in boxes) + 4 * sum(overlap(frame, bar) for bar in bars)
                cost += 4 * sum(overlap(frame, label) for label in placed)
                for other in arrows if turn else [other for other in arrows if other is not arrow]:
                    inside = sum(frame[0] - 2 < px < frame[2] + 2 and frame[1] - 1 < py < frame[3] + 1 for px, py in samples[id(other)])
                    cost += 30 * inside
                if best is None or cost < best[0]:
                    best = (cost, (cx, cy, turn == 0), frame)
        placed.append(best[2])
        result[id(arrow)] = best[1]
    return result


def bars_of(arrows, shape):
    """arrow to the two ends of the thick line that cuts it"""
    bars = {}
    for arrow in arrows:
        if arrow.cut:
            x, y = shape.xy(arrow.at(0.5))
            x0, y0 = shape.xy(arrow.at(0.47))
            x1, y1 = shape.xy(arrow.at(0.53))
            length = math.sqrt((x1 - x0) * (x1 - x0) + (y1 - y0) * (y1 - y0)) or 1.0
            nx, ny = -(y1 - y0) / length * 14, (x1 - x0) / length * 14
            bars[id(arrow)] = (x - nx, y - ny, x + nx, y + ny)
    return bars


# ---- writing ---------------------------------------------------------------------------------------------------------------


def number(value):
    # one decimal, and no minus before a zero: the text must not depend on how the last bits were rounded
    text = f"{value:.1f}"
    return "0.0" if text == "-0.0" else text


def escaped(text):
    return text.replace("&", "&amp;").replace("<", "&lt;").replace(">", "&gt;")


def text_at(x, y, words, size=13, colour=INK, anchor="middle", weight="normal", halo=False):
    # a label keeps a white rim, so that it stays readable where it has to stand on an arrow
    rim = ' stroke="#ffffff" stroke-width="4" stroke-linejoin="round" paint-order="stroke"' if halo else ""
    return (
        f'<text x="{number(x)}" y="{number(y)}" {FONT} font-size="{size}" font-weight="{weight}" fill="{colour}"'
        f' text-anchor="{anchor}"{rim}>{escaped(words)}</text>'
    )


def line_at(x0, y0, x1, y1, colour, width, dashes=""):
    dashed = f' stroke-dasharray="{dashes}"' if dashes else ""
    return (
        f'<line x1="{number(x0)}" y1="{number(y0)}" x2="{number(x1)}" y2="{number(y1)}" stroke="{colour}"'
        f' stroke-width="{width}"{dashed}/>'
    )


def head(colour, name):
    return (
        f'<marker id="{name}" viewBox="0 0 10 10" refX="9" refY="5" markerWidth="9" markerHeight="9" markerUnits="userSpaceOnUse"'
        f' orient="auto"><path d="M0,0.8 L10,5 L0,9.2 z" fill="{colour}"/></marker>'
    )


EMPTY_BORDER = f'stroke="{GONE}" stroke-width="1.2" stroke-dasharray="3 3"'
STROKES = {STAYS: (INK, 1.4, "", "ink"), REMOVED: (GONE, 1.4, "6 4", "gone"), ADDED: (NEW, 3.2, "", "new")}


def draw_arrow(arrow, fate, shape, left, top):
    colour, width, dashes, marker = STROKES[fate]
    words = []
    for k, piece in enumerate(arrow.path):
        points = [shape.xy(point) for point in piece]
        points = [(x + left, y + top) for x, y in points]
        if k == 0:
            words.append(f"M{number(points[0][0])},{number(points[0][1])}")
        words.append("C" + " ".join(f"{number(x)},{number(y)}" for x, y in points[1:]))
    dashed = f' stroke-dasharray="{dashes}"' if dashes else ""
    return (
        f'<path d="{" ".join(words)}" fill="none" stroke="{colour}" stroke-width="{width}"{dashed}'
        f' marker-end="url(#{marker})"/>'
    )


def draw_panel(picture, left, top, shows, with_bars):
    """one register: shows gives the fate under which an arrow is drawn, or None"""
    shape, places = picture["shape"], picture["places"]
    out = []
    visible = [(arrow, shows(arrow)) for arrow in picture["arrows"] if shows(arrow)]
    held = {arrow.to for arrow, fate in visible if fate != REMOVED}
    for arrow, fate in visible:
        out.append(draw_arrow(arrow, fate, shape, left, top))
    for office in sorted(places):
        x, y = shape.xy(places[office])
        hx, hy = shape.xy((shape.half_along, shape.half_across))
        empty = office != picture["soa"] and office not in held
        border = EMPTY_BORDER if empty else f'stroke="{INK}" stroke-width="{2.6 if office == picture["soa"] else 1.4}"'
        out.append(
            f'<rect x="{number(left + x - hx)}" y="{number(top + y - hy)}" width="{number(2 * hx)}" height="{number(2 * hy)}" rx="3"'
            f' fill="{"#f4f4f4" if empty else "#ffffff"}" {border}/>'
        )
        name = picture["names"].get(office)
        words = f"{office} {name}" if name else (f"{office} SOA" if office == picture["soa"] else str(office))
        out.append(text_at(left + x, top + y + 4.5, words, 12 if name else 14, GONE if empty else INK))
    for arrow, fate in visible:
        x, y, on_arrow = picture["labels"][id(arrow)]
        words = arrow.label() if fate == arrow.fate else " ".join(arrow.perms)
        colour = STROKES[fate][0]
        if on_arrow:
            half = label_half(arrow)
            out.append(
                f'<rect x="{number(left + x - half)}" y="{number(top + y - 5)}" width="{number(2 * half)}" height="10.0"'
                f' fill="#ffffff"/>'
            )
        out.append(text_at(left + x, top + y + 4.5, words, 12, colour, weight="bold" if fate == ADDED else "normal", halo=True))
        if with_bars and id(arrow) in picture["bars"]:
            x0, y0, x1, y1 = picture["bars"][id(arrow)]
            out.append(line_at(left + x0, top + y0, left + x1, top + y1, CUT, 6))
    return out


def extent(picture):
    """the box of a panel (left, top, right, bottom), boxes, arrows and labels included"""
    shape = picture["shape"]
    hx, hy = shape.xy((shape.half_along, shape.half_across))
    frames = [(x - hx, y - hy, x + hx, y + hy) for x, y in (shape.xy(point) for point in picture["places"].values())]
    for arrow in picture["arrows"]:
        frames += [(x, y, x, y) for x, y in (shape.xy(arrow.at(k / 20)) for k in range(21))]
        x, y, _ = picture["labels"][id(arrow)]
        half = label_half(arrow)
        frames.append((x - half, y - 8, x + half, y + 8))
    return [pick(frame[k] for frame in frames) for k, pick in enumerate((min, min, max, max))]


def told(commands, answers):
    """what was asked and answered, a line a command, or one line for a long script"""
    if len(commands) > 4:
        kinds = sorted({answer for answer, _, _ in answers})
        removed, added = (sum(answer[k] for answer in answers) for k in (1, 2))
        return [f"{len(commands)} commands, answers {', '.join(map(str, kinds))}: removed {removed}, added {added}"]
    lines = []
    for (act, by, to, perm), (answer, removed, added) in zip(commands, answers):
        asked = f"{act.upper() if act != 'grant' else act} {by},{to}" + (f" {perm}" if perm != "none" else "")
        lines.append(f"{asked}: removed {removed}, added {added}" if answer == 0 else f"{asked}: refused, answer {answer}")
    return lines


def legend(left, y, cut, empty):
    out, x = [], left
    entries = [("grant", STAYS)] + ([("cut", "cut"), ("removed", REMOVED), ("added", ADDED)] if cut else [])
    for words, fate in entries:
        if fate == "cut":
            out.append(line_at(x + 16, y - 8, x + 16, y + 8, CUT, 6))
        else:
            colour, width, dashes, _ = STROKES[fate]
            out.append(line_at(x, y, x + 32, y, colour, width, dashes))
        out.append(text_at(x + 38, y + 4, words, 11, anchor="start"))
        x += 52 + 8 * len(words)
    if empty:
        out.append(f'<rect x="{number(x)}" y="{number(y - 7)}" width="30.0" height="14.0" rx="3" fill="#f4f4f4" {EMPTY_BORDER}/>')
        out.append(text_at(x + 36, y + 4, "holds nothing", 11, anchor="start"))
    return out


def draw(entry):
    """the text of one picture"""
    start = Lines(ROOT / entry["register"])
    n, soa, records = read_register(start)
    before = after = set(records)
    commands, answers = [], []
    if "run" in entry:
        asked = Lines(ROOT / (entry["run"] + ".input.txt"))
        assert read_register(asked) == (n, soa, records), f"{entry['run']}.input.txt does not start with {entry['register']}"
        commands = read_commands(asked)
        given = Lines(ROOT / (entry["run"] + ".output.txt"))
        answers = read_answers(given)
        assert len(answers) == len(commands), f"{entry['run']}: {len(commands)} commands, {len(answers)} answers"
        after_n, after_soa, left = read_register(given)
        assert (after_n, after_soa) == (n, soa) and not given.left
        after = set(left)

    names = read_names(ROOT / entry["names"]) if "names" in entry else {}
    drawn = set(map(int, entry["offices"].split())) if "offices" in entry else set(range(n))
    hidden = [record for record in before ^ after if not {record[0], record[1]} <= drawn]
    assert not hidden, f"{entry['picture']}: a record that was removed or added is not drawn: {hidden}"
    shape = Shape(not names, max([len(f"{k} {name}") for k, name in names.items()], default=0))
    layers = layers_of(n, soa, drawn, before, after)
    links = sorted({(by, to) for by, to, _ in before if by in drawn and to in drawn})
    places, depth = place(layers, links, shape)
    arrows = arrows_of(before, after, drawn)
    # a refused deletion cuts nothing; a grant that a later command took again is in neither register
    cuts = {(by, to) for (act, by, to, _), (answer, _, _) in zip(commands, answers) if act != "grant" and answer == 0}
    for arrow in arrows:
        arrow.cut = (arrow.by, arrow.to) in cuts and arrow.fate == REMOVED
    route(arrows, places, depth, shape)
    bars = bars_of(arrows, shape)
    hx, hy = shape.xy((shape.half_along, shape.half_across))
    boxes = [(x - hx, y - hy, x + hx, y + hy) for x, y in (shape.xy(point) for point in places.values())]
    frames = [(min(b[0], b[2]) - 4, min(b[1], b[3]) - 4, max(b[0], b[2]) + 4, max(b[1], b[3]) + 4) for b in bars.values()]
    picture = {
        "shape": shape, "places": places, "arrows": arrows, "names": names, "soa": soa, "bars": bars,
        "labels": label_places(arrows, boxes, frames, shape),
    }

    heading = [entry["title"]] + told(commands, answers)
    l, t, r, b = extent(picture)
    margin, top = 22, 34 + 18 * (len(heading) - 1)
    two = bool(commands) and not names
    panel = r - l
    titles = 22 if two else 0
    panels = 2 * panel + 70 if two else panel
    # wide enough for the panels, the heading and the legend
    width = max(2 * margin + panels, 2 * margin + 8.6 * max(map(len, heading)), 515 if commands else 0)
    height = top + titles + (b - t) + 2 * margin + 22
    shown_after = lambda arrow: arrow.fate
    shown_before = lambda arrow: None if arrow.fate == ADDED else STAYS
    out = [
        f'<svg xmlns="http://www.w3.org/2000/svg" width="{number(width)}" height="{number(height)}"'
        f' viewBox="0 0 {number(width)} {number(height)}">',
        f'<title>{escaped(", ".join(heading))}</title>',
        "<defs>" + head(INK, "ink") + head(GONE, "gone") + head(NEW, "new") + "</defs>",
        f'<rect width="{number(width)}" height="{number(height)}" fill="#ffffff"/>',
    ]
    for k, words in enumerate(heading):
        out.append(text_at(margin, 24 + 18 * k, words, 14 if k == 0 else 13, anchor="start", weight="bold" if k == 0 else "normal"))
    body = top + titles + margin / 2
    slack = (width - 2 * margin - panels) / 2
    if two:
        first, second = margin + slack - l, margin + slack + panel + 70 - l
        out.append(text_at(first + (l + r) / 2, top + 14, "before", 12, GONE))
        out.append(text_at(second + (l + r) / 2, top + 14, "after", 12, GONE))
        middle = margin + slack + panel + 35
        out.append(line_at(middle, top + 4, middle, body + (b - t), "#dddddd", 1))
        out += draw_panel(picture, first, body - t, shown_before, True)
        out += draw_panel(picture, second, body - t, shown_after, False)
    else:
        out += draw_panel(picture, margin + slack - l, body - t, shown_after, True)
    held = {arrow.to for arrow in arrows if arrow.fate != REMOVED} | {soa}
    out += legend(margin, height - 20, bool(commands), bool(drawn - held))
    out.append("</svg>")
    return "\n".join(out) + "\n"


def entries():
    """the pictures that the list names, each a few lines key=value, with an empty line between"""
    listed = []
    for block in (PICTURES / "pictures.txt").read_text(encoding="utf-8").strip().split("\n\n"):
        lines = [line for line in block.split("\n") if not line.startswith("#")]
        if lines:
            listed.append(dict(line.split("=", 1) for line in lines))
    return listed


def draw_all(folder):
    for entry in entries():
        (folder / f"{entry['picture']}.svg").write_text(draw(entry), encoding="utf-8")


def check():
    with tempfile.TemporaryDirectory() as name:
        folder = pathlib.Path(name)
        draw_all(folder)
        fresh = {path.name: path.read_bytes() for path in folder.glob("*.svg")}
    kept = {path.name: path.read_bytes() for path in PICTURES.glob("*.svg")}
    faults = [name for name in sorted(fresh.keys() | kept.keys()) if fresh.get(name) != kept.get(name)]
    for name in faults:
        print("pictures:", name, "is not drawn by the list" if name not in fresh else "is missing" if name not in kept else "differs")
    print(f"pictures: {len(fresh)} drawn again, {len(faults)} different")
    return 1 if faults else 0


if __name__ == "__main__":
    if sys.argv[1:] == ["--check"]:
        sys.exit(check())
    if sys.argv[1:]:
        sys.exit(__doc__)
    draw_all(PICTURES)
