"""Measures the drawings of `dme export --as svg` with Python's reader of XML, and compares them with the program and the features that they
were made of: each nominal point is at its place relative to the first one, in both views and in the scale that is named, which is the
largest round one that has room; each deviation has the length and the direction that its magnification gives it, the colour of its side of
the surface, and is thin if it leans; each feature has its label, and the bar and the number of its greatest deviation along the normal; no
two labels overlap, and no two leaders cross; a point has its number if no other touch is near; the scale bar is as long as it says; nothing
leaves the sheet. The drawings in docs/ are what is printed now.

`run` calls this; by itself: tests/drawings.py
"""

import re
import sys
import xml.etree.ElementTree as trees
from decimal import ROUND_UP, Decimal

from common import EXAMPLES, ROOT, counted, holds, must
from tables import along, origins_of, points_of, printed, touches_of

# The picture in docs/, the schedule of its features file, and the program.
DRAWINGS = {
    "circle": ("break_inside_a_feature", "circle.dmis"),
    "two_frames": ("abort_between_two_frames", "two_frames.dmis"),
    "two_points": ("both_ends_restart", "two_points.dmis"),
}

SHEET = (Decimal(297), Decimal(210))
NEAR = Decimal("0.001")
LINE_HEIGHT = Decimal(3)
RED, BLUE, GREY = "#d00000", "#0050d0", "#555"
SCALES = sorted(Decimal(m).scaleb(e) for e in range(7) for m in ("1", "2", "2.5", "3", "4", "5"))
SCALES = [1 / it for it in reversed(SCALES)] + [it for it in SCALES if 1 < it <= 10000]
EDGE, LABEL, AXIS, NUMBER = Decimal(217), Decimal("222.5"), Decimal("274.5"), Decimal(294)
LONGEST_BAR = Decimal(8)


def numbers_of(element, *names):
    return [Decimal(element.get(it)) for it in names]


def shapes_of(root):
    """Each shape with what it inherits: its name without its space, its attributes, its text."""
    found = []

    def walk(element, inherited):
        own = inherited | element.attrib
        name = element.tag.rpartition("}")[2]
        if name != "g":
            found.append((name, own, (element.text or "").strip()))
        for it in element:
            walk(it, own)

    for it in root:
        walk(it, {"font-size": root.get("font-size")})
    return found


def places_of(shape):
    """The positions in a shape."""
    name, own, text = shape
    if name == "polyline":
        return [tuple(map(Decimal, it.split(","))) for it in own["points"].split()]
    keys = {"circle": [("cx", "cy")], "line": [("x1", "y1"), ("x2", "y2")], "text": [("x", "y")], "rect": [("x", "y")]}[name]
    return [(Decimal(own.get(a, "0")), Decimal(own.get(b, "0"))) for a, b in keys]


def is_in(box, place):
    x, y, width, height = box
    return x <= place[0] <= x + width and y <= place[1] <= y + height


def is_near(a, b):
    return abs(a - b) <= NEAR


def must_lie(places, expected, told):
    """Compares positions on paper with what they must be relative to the first of them."""
    must(len(places) == len(expected), told, "count", len(places), "of", len(expected))
    for place, wanted in zip(places, expected):
        for k in (0, 1):
            must(is_near(place[k] - places[0][k], wanted[k] - expected[0][k]), told, place, "not", wanted)


def colour_of(peak):
    return GREY if not peak else RED if peak > 0 else BLUE


def is_thin(deviation, peak):
    return peak is not None and sum(it * it for it in deviation) > 2 * peak * peak


def must_show(view, axis, shapes, scale, magnified, nominal, deviations, alongs):
    """One view: its dots are the nominal points, its whiskers the deviations; x to the right and the other axis up."""
    inside = [it for it in shapes if it[0] in ("circle", "line") and all(is_in(view, place) for place in places_of(it))]
    dots = [it for it in inside if it[0] == "circle"]
    solid = [places_of(it)[0] for it in dots if it[1]["fill"] == "#000"]
    hollow = [places_of(it)[0] for it in dots if it[1]["fill"] == "#fff"]
    on_paper = [(it[0] * scale, -it[axis] * scale) for it in nominal]
    must_lie(solid + hollow, on_paper, "points")
    must(len(solid) == len(deviations), "solid dots", len(solid))
    whiskers = [it for it in inside if it[0] == "line" and it[1].get("stroke-linecap") == "round"]
    must(len(whiskers) == len(deviations), "whiskers", len(whiskers))
    for whisker, dot, deviation, peak in zip(whiskers, solid, deviations, alongs):
        start, end = places_of(whisker)
        must(start == dot, "a whisker begins at", start, "not", dot)
        must(whisker[1]["stroke"] == colour_of(peak), "colour of", peak, whisker)
        must(whisker[1]["stroke-width"] == ("0.250" if is_thin(deviation, peak) else "0.500"), "thickness of", deviation, whisker)
        must(is_near(end[0] - start[0], deviation[0] * magnified), "whisker in x", end, deviation)
        must(is_near(end[1] - start[1], -deviation[axis] * magnified), "whisker upwards", end, deviation)
    must_have_numbers(view, shapes, solid + hollow, alongs)


def dots_of(view, shapes):
    return [places_of(it)[0] for it in shapes if it[0] == "circle" and is_in(view, places_of(it)[0])]


def must_have_numbers(view, shapes, dots, alongs):
    """The deviation along the normal is at each point of a view that has no other touch within the room of a number."""
    found = [(places_of(it)[0], it[2]) for it in shapes if it[0] == "text" and it[1]["font-size"] == "2.2" and is_in(view, places_of(it)[0])]
    is_near_to = lambda a, b: abs(a[0] - b[0]) <= 9 and abs(a[1] - b[1]) <= Decimal("3.5")
    alone = [sum(is_near_to(dot, it) for it in dots) == 1 for dot in dots]
    wanted = [((dot[0] + 1, dot[1] - Decimal("0.7")), f"{peak + 0:.3f}")
        for dot, is_alone, peak in zip(dots, alone, alongs) if is_alone and peak is not None]
    must(found == wanted, "numbers", found, wanted)


def ratio(text, words):
    found = re.search(rf"{words} ([0-9.]+):([0-9.]+)", text)
    must(found, "no", words)
    return Decimal(found[1]) / Decimal(found[2])


def must_fit(scale, longest, lengths, room):
    """A scale is the largest at which lengths fit."""
    must(any(abs(scale / it - 1) < NEAR for it in SCALES), longest, "is no round scale", scale)
    larger = min((it for it in SCALES if it > scale * (1 + NEAR)), default=None)
    fits = lambda by: all(length * by <= most + NEAR for length, most in zip(lengths, room))
    must(fits(scale) and not (larger and any(lengths) and fits(larger)), longest, scale, "for", lengths)


def must_lead(shapes, plan, labels, nominal_heights):
    """Leaders: level from a point as far as the frame's edge, from there straight to the label; none crosses another."""
    lines = [places_of(it) for it in shapes if it[0] == "line" and it[1].get("stroke-dasharray") == "1 0.7"]
    level = [it for it in lines if it[1][0] == EDGE]
    slanted = [it for it in lines if it[0][0] == EDGE]
    must(len(level) == len(slanted) == len(labels), "leaders", len(level), len(slanted))
    for (start, edge), (turn, end) in zip(level, slanted):
        must(start[1] == edge[1] and edge == turn and end[0] == LABEL, "leader", start, edge, turn, end)
        must(any(is_near(start[1], it) for it in nominal_heights) and is_in(plan, start), "leader begins at", start)
    ends = [(turn[1], end[1]) for turn, end in slanted]
    must(all(a[0] <= b[0] and a[1] < b[1] for a, b in zip(ends, ends[1:])), "leaders cross", ends)


def must_have_peaks(shapes, features):
    """Each feature's greatest deviation along its normals: a bar from the axis, to scale by the greatest of the part, and its number."""
    peaks = {}
    for label, own in features:
        known = [it for it in own if it is not None]
        if known:
            peaks[label] = max(known, key=abs)
    most = max([abs(it) for it in peaks.values()] + [NEAR])
    at_line = {places_of(it)[0][1]: it[2] for it in shapes if it[0] == "text" and it[1].get("font-family") == "monospace"}
    numbers = {at_line[places_of(it)[0][1]]: it[2] for it in shapes if it[0] == "text" and it[1].get("text-anchor") == "end"}
    must(numbers == {label: f"{it + 0:.3f}" for label, it in peaks.items()}, "peaks", numbers, peaks)
    bars = {at_line[Decimal(it[1]["y"]) + 2]: it[1] for it in shapes if it[0] == "rect" and it[1].get("stroke") == "none"}
    must(bars.keys() == peaks.keys(), "bars", bars.keys())
    for label, peak in peaks.items():
        left, width = Decimal(bars[label]["x"]), Decimal(bars[label]["width"])
        must(is_near(width, LONGEST_BAR * abs(peak) / most), "bar of", label, width)
        must((left + width if peak < 0 else left) == AXIS, "bar of", label, "at", left)
        must(bars[label]["fill"] == colour_of(peak), "colour of", label)


def must_be_labelled(shapes, labels):
    own = [it for it in shapes if it[0] == "text" and it[1].get("font-family") == "monospace"]
    must(sorted(it[2] for it in own) == sorted(labels), "labels", [it[2] for it in own])
    heights = sorted(places_of(it)[0][1] for it in own)
    must(all(b - a >= LINE_HEIGHT for a, b in zip(heights, heights[1:])), "labels on one another", heights)


def must_have_bar(shapes, scale):
    """The scale bar, which is the one thick black line, has the length that the text after it says."""
    bar = next(at for at, it in enumerate(shapes) if it[0] == "line" and it[1].get("stroke-width") == "0.8")
    start, end = places_of(shapes[bar])
    told = re.fullmatch(r"([0-9.]+) mm", shapes[bar + 1][2])
    must(told and is_near(end[0] - start[0], Decimal(told[1]) * scale), "scale bar", shapes[bar + 1][2])


def must_be_drawn(name, schedule, program):
    text = printed("svg", f"{schedule}.features", program)
    must((ROOT / "docs" / f"{name}.svg").read_text() == text, "is not the drawing in docs")
    root = trees.fromstring(text.encode())
    must((root.get("width"), root.get("height"), root.get("viewBox")) == ("297mm", "210mm", "0 0 297 210"), "sheet")
    shapes = shapes_of(root)
    for shape in shapes:
        must(all(is_in((0, 0, *SHEET), it) for it in places_of(shape)), "leaves the sheet", shape)
    touches = touches_of((EXAMPLES / program).read_text())
    points = points_of((EXAMPLES / f"{schedule}.features").read_text())
    origin = origins_of((EXAMPLES / "machine.setup").read_text())[0]
    moved = [[a + b for a, b in zip(target, origin)] if is_recalled else target for _, is_recalled, target, _ in touches]
    deviations = [[a - b for a, b in zip(point[3], touch[2])] for touch, point in zip(touches, points)]
    caption = next(it[2] for it in shapes if "machine axes" in it[2])
    scale, magnified = ratio(caption, "Scale"), ratio(caption, "magnified")
    must(f"{len(points)} of {len(touches)} points measured" in caption, "count", caption)
    plan, front = [numbers_of(it, "x", "y", "width", "height") for it in root.iter() if it.get("width") == "207.000"]
    alongs = [along(it, touch[3]) if touch[3] else None for it, touch in zip(deviations, touches)]
    must_show(plan, 1, shapes, scale, magnified, moved, deviations, alongs)
    must_show(front, 2, shapes, scale, magnified, moved, deviations, alongs)
    spans = [max(it[k] for it in moved) - min(it[k] for it in moved) for k in (0, 1, 2)]
    must_fit(scale, "views", (spans[0], spans[1] + spans[2]), (187, 118))
    must(all(is_in(view, it) for view, shape in zip((plan, front), (it for it in shapes if it[0] == "polyline"))
        for it in places_of(shape)), "the way leaves its view")
    longest = max([(it[0] ** 2 + it[k] ** 2).sqrt() for it in deviations for k in (1, 2)] + [Decimal(0)])
    must_fit(magnified, "whiskers", (longest.quantize(NEAR, ROUND_UP),), (10,))
    blocks = re.findall(r"^MEAS/.*?F\((\w+)\),(\d+)", (EXAMPLES / program).read_text(), re.M)
    labels = [label for label, _ in blocks]
    must_be_labelled(shapes, labels)
    must_lead(shapes, plan, labels, [it[1] for it in dots_of(plan, shapes)])
    ends = [sum(int(it[1]) for it in blocks[:k + 1]) for k in range(len(blocks))]
    must_have_peaks(shapes, [(label, alongs[end - int(count):end]) for (label, count), end in zip(blocks, ends)])
    must(f"Program {program}" in [it[2] for it in shapes], "title")
    must_have_bar(shapes, scale)


def check_drawings():
    wrong = sum(not holds(f"drawing of {name}", must_be_drawn, name, *of) for name, of in DRAWINGS.items())
    return counted("drawings", wrong, len(DRAWINGS))


if __name__ == "__main__":
    sys.exit(1 if check_drawings()[1] else 0)
