"""Reads the pages of `dme report` back by Python's reader of HTML, and compares each number with `dme export --as json` of the same record.

What a page has besides its numbers, its verdicts, bars and texts, is computed here from those and from the record; seals are made by
Python's `hmac`. Each page is read as it is printed, and as a real browser shows it, which also prints it. `run` calls this; by itself:
tests/pages_of_parts.py
"""

import hashlib
import hmac
import html.parser
import json
import sys

from browser import prints_on_a4, shown
from common import EXAMPLES, called, length, listed, room

COLUMNS = [f"{name}_{axis}" for name in ("nominal", "measured", "deviation") for axis in "xyz"]
# What could load something from elsewhere, or run.
FOREIGN = {"script", "link", "img", "iframe", "object", "embed", "base", "form", "a", "image", "use", "foreignobject"}
HOSTILE = """<script>alert("1")</script>&amp;'"""
KEY = b"a key of a department"
NO_SEAL = ("open", "Not sealed: the record has no seal.")
UNJUDGED = ("open", "Seals not checked: no key was named.")
SEALED = ("yes", "Sealed: a true seal stands for each line of the record.")


class Page(html.parser.HTMLParser):
    """The parts of a page: its title, its heading, its lines with their classes, its errors, and for each feature its line and its rows."""

    def __init__(self, text):
        super().__init__(convert_charrefs=True)
        self.lines, self.features, self.texts, self.foreign, self.checks = [], [], {}, [], []
        self.open, self.text, self.in_drawing = [], "", False
        self.feed(text)
        self.close()

    def handle_starttag(self, tag, attributes):
        given = dict(attributes)
        is_foreign = tag in FOREIGN or any(it in ("src", "href", "style") or it.startswith("on") for it in given)
        self.foreign += [tag] if is_foreign else []
        if tag == "svg" and given.get("class") != "bar":
            self.in_drawing = True
        if self.in_drawing:
            return
        if tag in ("title", "h1", "h2", "p", "td", "pre"):
            self.text = ""
        if tag == "p":
            self.kind = given.get("class", "")
        if tag == "tr":
            self.row = {"class": given.get("class"), "cells": [], "bar": None}
        if tag == "g":
            self.turn = {"scale(1 1)": 1, "scale(-1 1)": -1}[given["transform"]]
        if tag == "rect":
            self.row["bar"] = self.turn * int(given["width"])

    def handle_endtag(self, tag):
        if tag == "svg" and self.in_drawing:
            self.in_drawing = False
            self.texts["drawings"] = self.texts.get("drawings", 0) + 1
        if self.in_drawing:
            return
        if tag in ("title", "h1", "pre"):
            self.texts[tag] = self.text
        if tag == "h2":
            self.features.append({"heading": self.text, "line": None, "rows": []})
        if tag == "p" and self.features and self.features[-1]["heading"] == "How to check this page":
            self.checks.append(self.text)
        elif tag == "p" and self.features:
            self.features[-1]["line"] = self.text
        elif tag == "p":
            self.lines.append((self.kind, self.text))
        if tag == "td":
            self.row["cells"].append(self.text)
        if tag == "tr" and self.row["cells"]:
            self.features[-1]["rows"].append(self.row)

    def handle_data(self, data):
        self.text += data


def micrometres(text):
    whole, decimals = text.lstrip("-").split(".")
    return (-1 if text.startswith("-") else 1) * (int(whole) * 1000 + int(decimals))


def record_of(part, features, measured):
    """The program and the record of features, of which the first ones were measured; each is a label with touches, and what they gave."""
    program, head, tail = ["DMISMN/'P',05.2", "SNSLCT/S(P1)"], ["DME-RECORD 1", f"PART {part}"], ["1 HOMEDIS 1", "1 FRAMED M", "1 CHANGED P1"]
    for number, (label, touches) in enumerate(features):
        program.append(f"MEAS/CIRCLE,F({label}),{len(touches)}")
        head.append(f"FEATURE {label} {len(touches)}")
        for target, normal, point in touches:
            nominal = [length(it) for it in target]
            direction = [f"{it:.6f}" for it in normal]
            program.append("PTMEAS/CART," + ",".join(nominal + direction))
            touch = " ".join(nominal + ["D"] + direction + ["P1", "M"])
            head.append(f"TOUCH {touch}")
            if number < measured:
                tail.append(f"1 CONTACT {touch} " + " ".join(map(length, point)))
        program.append("ENDMES")
        tail += [f"1 COMPLETED {label}"] if number < measured else []
    return "\n".join(program + ["ENDFIL", ""]), "\n".join(head + ["END"] + tail + [""])


def planes_of(count, touches, labels):
    """Features of touches along an axis each, measured up to 60 micrometres off it, and 9 along the others."""
    normals, found = [(0, 0, 1), (1, 0, 0), (0, -1, 0)], []
    for number in range(count):
        normal, own = normals[number % 3], []
        for at in range(touches):
            target = (1000 * at, 7500 * number, 20000 - 250 * at)
            off = (at * 37 + number * 11) % 121 - 60
            own.append((target, normal, [a + b * off + (0 if b else at % 10) for a, b in zip(target, normal)]))
        found.append((labels[number] if number < len(labels) else f"PLANE{number}", own))
    return found


def sealed(record, connection=2):
    """A record with the seal of all its lines."""
    return f"{record}{connection} SEAL {hmac.new(KEY, record.encode(), hashlib.sha256).hexdigest()}\n"


def open_at(line):
    return "no", f"Seals do not hold: no true seal stands for line {line} of the record."


def cases():
    """Records by name: the program, the record, the limits, the part, the labels, how many of them were measured, whether a key is named,
    and the page's line on seals."""
    for name, case in plain_cases():
        yield name, (*case, False, NO_SEAL)
    circle = (EXAMPLES / "circle.dmis").read_text()
    record = (EXAMPLES / "break_inside_a_feature.record").read_text()
    record = record.replace("DME-RECORD 1", "DME-RECORD 2", 1)
    whole, lines = sealed(record), record.count("\n")
    for name, text, is_keyed, seals in (
        ("sealed", whole, True, SEALED),
        ("sealed_without_key", whole, False, UNJUDGED),
        ("without_a_seal", record, True, NO_SEAL),
        ("edited", whole.replace("M 1.000 0.000 0.004", "M 1.000 0.000 0.003"), True, open_at(lines + 1)),
        ("longer_than_its_seal", whole + "2 LEFT 2026-11-30T00:00:00.000Z done\n", True, open_at(lines + 2)),
    ):
        yield name, (circle, text, None, "(not named)", ["C"], 1, is_keyed, seals)


def plain_cases():
    """Those without a seal and without a key."""
    circle = (EXAMPLES / "circle.dmis").read_text()
    record = (EXAMPLES / "break_inside_a_feature.record").read_text()
    yield "circle", (circle, record, None, "(not named)", ["C"], 1)
    yield "circle_on_its_limit", (circle, record, "LIMIT * -0.001 0.002\n", "(not named)", ["C"], 1)
    yield "circle_out_of_its_limit", (circle, record, "LIMIT C -0.001 0.001\n", "(not named)", ["C"], 1)
    yield "nothing_measured", (circle, "", "LIMIT C -0.001 0.001\n", "(not named)", ["C"], 0)
    hostile = planes_of(8, 25, ["A&B", "<B>", "&LT;", "C<!--"])
    for name, measured in (("two_hundred_points", 8), ("unfinished", 5)):
        labels = [label for label, _ in hostile]
        limits = "LIMIT * -0.06 0.06\nLIMIT <B> -0.030 0.030\n" if measured == 5 else "LIMIT A&B -0.060 0.060\nLIMIT PLANE7 -0.061 0.061\n"
        yield name, (*record_of(HOSTILE, hostile, measured), limits, HOSTILE, labels, measured)


def printed(folder, *words):
    status, text, errors = called(folder, *words)
    assert status in (0, 3), (words, status, errors)
    return text, errors, status


def expected_row(row, most, has_limits):
    cells = [str(row["point"])] + [row[it] or "" for it in COLUMNS] + [row["deviation_along_normal"] or "", ""]
    along = row["deviation_along_normal"]
    bar = None if along is None else (-1 if micrometres(along) < 0 else 1) * (abs(micrometres(along)) * 50 // most)
    return {"class": (row.get("limit") or "") if has_limits else "", "cells": cells + ([row["limit"] or ""] if has_limits else []), "bar": bar}


def limits_line(rows, limits, is_complete):
    if limits is None:
        return "open", "Not compared with limits: none were named."
    out = sum(row["limit"] == "out" for row in rows)
    compared = sum(row["limit"] is not None for row in rows)
    kind, word = ("no", "Out of limits") if out else ("open", "Not compared with limits") if not compared else (
        ("yes", "Within limits") if is_complete and compared == len(rows) else ("open", "Within limits as far as compared"))
    return kind, (f"{word}: {out} of {compared} compared points are out, {len(rows) - compared} not compared. "
                  "No fit and no other tolerance was evaluated.")


def feature_line(label, limits, worst):
    """The line of a feature's limits: that of its own label, in capitals, or else of all."""
    if limits is None:
        return None
    ranges = {line.split()[1]: line.split()[2:] for line in limits.splitlines()}
    if label not in ranges and "*" not in ranges:
        return "No limit is for it."
    lower, upper = ranges.get(label) or ranges["*"]
    numbers = [length(round(float(it) * 1000)) for it in (lower, upper)]
    return f"Limits {numbers[0]} to {numbers[1]}. {worst.get(label, '')}"


def attempts_in(record, labels):
    """The lines on discarded attempts: the contacts before those of a feature's last attempt, and those after the last feature."""
    counts = {line.split()[1]: int(line.split()[2]) for line in record.splitlines() if line.startswith("FEATURE ")}
    found, contacts, left = [], 0, list(labels)
    for words in (line.split() for line in record.splitlines()):
        if words[1:2] == ["CONTACT"]:
            contacts += 1
        if words[1:2] == ["COMPLETED"]:
            found.append((left.pop(0), contacts - counts[words[2]]))
            contacts = 0
    found.append((left[0] if left else "after the last feature", contacts))
    return "".join(f"{place}: contacts of attempts that were discarded: {count}\n" for place, count in found if count)


def notes_in(record, labels):
    """The lines of the page on what the last connection's record notes after one feature, and on discarded attempts; None if there
    are none."""
    words = {"SEAL": "sealed", "LEFT": "left at"}
    notes = [line.split(" ", 2) for line in record.splitlines()]
    told = "".join(f"connection {it[0]}, 1 features: {words[it[1]]} {it[2]}\n" for it in notes if it[1:2] and it[1] in words)
    return told + attempts_in(record, labels) or None


def is_as_expected(page, part, head, sections, record, labels):
    return all((
        page.texts["title"] == page.texts["h1"] == f"Part {part}",
        page.lines[:len(head)] == head,
        page.features[:-1] == sections and page.features[-1]["heading"] == "How to check this page",
        page.checks[-1] == f"SHA-256 of the record: {hashlib.sha256(record.encode()).hexdigest()}",
        not page.foreign and page.texts["drawings"] == 1 and page.texts.get("pre") == notes_in(record, labels),
    ))


def is_page(program, record, limits, part, labels, measured, is_keyed, seals):
    """Whether the page of a record is what its export, its audit and its texts say."""
    given = {"a&b<c>.dmis": program, "part.record": record, "part.limits": limits}
    with room({file: text for file, text in given.items() if text is not None}) as folder:
        (folder / "seal.key").write_bytes(KEY)
        of = ["--record", "part.record", "a&b<c>.dmis"]
        named = [] if limits is None else ["--limits", "part.limits"]
        keyed = ["--seal-key", "seal.key"] if is_keyed else []
        text, notes, status = printed(folder, "report", *named, *keyed, *of)
        exported, lines, export_status = printed(folder, "export", "--as", "json", *named, *of)
        audited, _, audit_status = printed(folder, "audit", *of)
        pages, is_printed = [Page(text), Page(shown(folder, text))], prints_on_a4(folder, text)
    rows = json.loads(exported, parse_float=str)
    is_complete = measured == len(labels)
    missing = "".join(f" {it} is missing." for it in labels[measured:])
    verdict = ("open", "Nothing to audit: no feature was measured.") if not measured else (
        ("yes", "Audit passed: each measured feature has its run of reported contacts.") if audit_status == 0 else
        ("no", "Audit failed: a measured feature has no run of reported contacts."))
    most = max([1] + [abs(micrometres(row["deviation_along_normal"])) for row in rows if row["deviation_along_normal"]])
    worst = dict(line[5:].split(": ", 1) for line in lines.splitlines() if ": worst " in line)
    head = [
        ("", "Program: a&b<c>.dmis"),
        ("yes" if is_complete else "no", f"{'Complete' if is_complete else 'Not complete'}: {measured} of {len(labels)} features were measured.{missing}"),
        limits_line(rows, limits, is_complete),
        seals,
    ]
    sections = [
        {
            "heading": label + ("" if number < measured else ": not measured"),
            "line": feature_line(label, limits, worst),
            "rows": [expected_row(row, most, limits is not None) for row in rows if row["feature"] == label],
        }
        for number, label in enumerate(labels)
    ]
    head.append((verdict[0], f"{verdict[1]} {audited}"))
    return all((
        is_printed,
        all(is_as_expected(page, part, head, sections, record, labels) for page in pages),
        status == export_status == (0 if is_complete else 3) and [it for it in lines.splitlines() if "missing" in it] == notes.splitlines(),
    ))


def check_pages_of_parts():
    made = dict(cases())
    return listed("pages of parts", "page of", made, lambda name: is_page(*made[name]))


if __name__ == "__main__":
    sys.exit(1 if check_pages_of_parts()[1] else 0)
