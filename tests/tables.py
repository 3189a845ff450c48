"""Reads the tables of `dme export` back by Python's readers of CSV and of JSON, and compares each field with the program and the features.

The expected values are computed here from the numerals of both files, in exact decimals. `run` calls this; by itself: tests/tables.py
"""

import csv
import io
import json
import sys
from decimal import ROUND_HALF_UP, Decimal

from common import EXAMPLES, called, listed, must

# The schedule of a features file, and the program of its features. Each touch of these programs has its direction.
TABLES = {
    "break_inside_a_feature": "circle.dmis",
    "abort_between_two_frames": "two_frames.dmis",
    "both_ends_restart": "two_points.dmis",
}

AXES = "xyz"
THREE = Decimal("0.001")
SIX = Decimal("0.000001")


def touches_of(text):
    """The touches of a program, in order: the tool, whether a frame is recalled, the target, the direction."""
    tool, is_recalled, touches = None, False, []
    for line in text.splitlines():
        word, _, rest = line.partition("/")
        if word == "SNSLCT":
            tool = rest[2:-1]
        elif word == "RECALL":
            is_recalled = True
        elif word == "PTMEAS":
            numbers = [Decimal(it) for it in rest.split(",")[1:]]
            touches.append((tool, is_recalled, numbers[:3], numbers[3:]))
    return touches


def origins_of(text):
    """The zero points of a setup's frames, in order."""
    return [[Decimal(it) for it in line.split()[2:]] for line in text.splitlines() if line.startswith("FRAME ")]


def points_of(text):
    """The points of a features file, in order: the label, the number in the feature, the connection, the point."""
    points = []
    for line in text.splitlines()[1:]:
        words = line.split()
        if words[0] == "FEATURE":
            label, connection, number = words[1], words[3], 0
        elif words[0] != "END":
            number += 1
            points.append((label, number, connection, [Decimal(it) for it in words]))
    return points


def along(deviation, direction):
    """The part of a deviation along a direction, to the nearest micrometre, halves away from zero."""
    length = sum(it * it for it in direction).sqrt()
    return (sum(a * b for a, b in zip(deviation, direction)) / length).quantize(THREE, ROUND_HALF_UP)


def expected_row(touch, point, origin):
    tool, is_recalled, target, direction = touch
    label, number, connection, measured = point
    deviation = [a - b for a, b in zip(measured, target)]
    row = {"feature": label, "point": str(number), "tool": tool, "connection": connection}
    row["frame"] = "PART" if is_recalled else "MACHINE"
    row["deviation_along_normal"] = str(along(deviation, direction))
    row |= {f"normal_{axis}": str(it.quantize(SIX)) for axis, it in zip("ijk", direction)}
    lists = (("nominal", target), ("measured", measured), ("deviation", deviation), ("frame", origin if is_recalled else [Decimal(0)] * 3))
    for name, numbers in lists:
        row |= {f"{name}_{axis}": str(it.quantize(THREE)) for axis, it in zip(AXES, numbers)}
    return row


def csv_rows(text):
    return list(csv.DictReader(io.StringIO(text), strict=True))


def json_rows(text):
    """The objects with each number as it is written there, and nothing for null."""
    rows = json.loads(text, parse_float=str, parse_int=str)
    return [{name: "" if it is None else it for name, it in row.items()} for row in rows]


def printed(form, features, program):
    status, text, error = called(EXAMPLES, "export", "--as", form, "--setup", "machine.setup", "--features", features, program)
    must(status == 0, "export", form, features, error)
    return text


def is_table(schedule, program):
    """Whether the table of a schedule's features is what its files say, in both forms and with the columns in the same order."""
    features = f"{schedule}.features"
    touches = touches_of((EXAMPLES / program).read_text())
    points = points_of((EXAMPLES / features).read_text())
    origin = origins_of((EXAMPLES / "machine.setup").read_text())[0]
    expected = [expected_row(touch, point, origin) for touch, point in zip(touches, points)]
    found = csv_rows(printed("csv", features, program))
    objects = json_rows(printed("json", features, program))
    is_right = found == objects == expected and [list(it) for it in found] == [list(it) for it in objects]
    return is_right and len(expected) == len(points) > 0


def is_spreadsheet(schedule, program):
    """Whether the tables of a schedule's features with their part, separated by semicolons and tabs and with decimal commas, have the same fields
    as the plain one, after the part, the program and whether the point is missing."""
    record = EXAMPLES / f"{schedule}.record"
    measured = ["--record", str(record)] if record.exists() else ["--features", str(EXAMPLES / f"{schedule}.features")]
    of = [*measured, "--setup", str(EXAMPLES / "machine.setup"), str(EXAMPLES / program)]

    def exported(*words):
        return called(EXAMPLES, "export", *words, *of)[1]

    plain = list(csv.DictReader(io.StringIO(exported("--as", "csv"))))
    first = {"part": "", "program": str(EXAMPLES / program)}
    expected = [{**first, "missing": "no" if row["measured_x"] else "yes", **row} for row in plain]
    numbers = [it for it in plain[0] if it.rpartition("_")[0] in ("nominal", "normal", "measured", "deviation", "frame", "deviation_along")]
    for sign, word in ((";", ";"), ("\t", "tab")):
        text = exported("--as", "csv", "--separator", word, "--decimal", "comma", "--with-part")
        rows = list(csv.DictReader(io.StringIO(text), delimiter=sign))
        with_commas = [{**row, **{it: row[it].replace(".", ",") for it in numbers}} for row in expected]
        if rows != with_commas or list(rows[0]) != list(expected[0]):
            return False
    objects = json.loads(exported("--as", "json", "--with-part"))
    return plain and [{it: row[it] for it in ("part", "program", "missing")} for row in objects] == [
        {**first, "missing": row["missing"] == "yes"} for row in expected]


def check_tables():
    return listed("tables", "table of", TABLES, lambda it: is_table(it, TABLES[it]) and is_spreadsheet(it, TABLES[it]))


if __name__ == "__main__":
    sys.exit(1 if check_tables()[1] else 0)
