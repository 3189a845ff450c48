"""A batch of thirty parts, as an inspector measures it: each by the same short call with `--machine`, on one simulated machine.

The connection of one run breaks and one run is killed: the same call again measures the rest. One part is never finished, and one is off by
0.030 mm at each third touch. Then each part has its record under its name in the folder of records; its page says what is missing and what is
out of limits; and the summary of all, of one unfinished part, has the figures that are computed here from the tables of the parts, as a table,
as text and as a page, whose charts have each part at its place in time. Each record is sealed: each of its seals is the HMAC that Python gives, the audit with the key accepts it, and refuses it once a
point is edited or the last seal is taken away.

`run` calls this; by itself: tests/batch.py
"""

import csv
import fractions
import hashlib
import hmac
import html.parser
import io
import json
import sys
import threading

from common import audited as audit, called, dme, ended, killed, length, listening, must, room, whole, write_into
from killed import program
from pages_of_parts import FOREIGN, micrometres
from relayed import Cutter

PARTS = 30
BROKEN, KILLED, UNFINISHED, OUT = 4, 11, 17, 23
TOOLS = "TOOL P1\nTOOL P2\nFRAME PART 100 50 10\n"
SHIFTS = "SHIFT 0.002 0 0\nSHIFT 0 0 0.001\nSHIFT 0 0 -0.004\n"
LIMITS = "LIMIT * -0.010 0.010\n"
LEAST, MOST = -10, 10
KEY = bytes(range(100, 132))


def cut_off(port, most, before_cut=lambda: None):
    """The port of a relay of one connection, which it cuts after that many bytes of the server."""
    cutter = Cutter(port, "down", most, "end", before_cut)
    cutter.start()
    return str(cutter.port)


def name_of(number):
    return f"0042/{number}"


def record_of(number):
    return f"parts/0042%2F{number}.record"


def run(folder, number, *more):
    return dme(folder, "run", "--machine", "cell.machine", "--part", name_of(number), "--operator", "A. B.", *more, "part.dmis")


def measured(folder, number, port, other):
    """Measures a part, by the same call again if its run broke or was killed."""
    runs = []
    if number in (BROKEN, UNFINISHED):
        runs = [run(folder, number, "--port", cut_off(port, 4_000))]
    elif number == KILLED:
        started = threading.Event()
        cut = cut_off(port, 6_000, lambda: (started.wait(), runs[0].kill()))
        runs.append(run(folder, number, "--port", cut))
        started.set()
    for it in runs:
        must(ended(it)[0] != 0, name_of(number), "was measured at once")
    if number != UNFINISHED:
        status, report, errors = ended(run(folder, number, *(["--port", str(other)] if number == OUT else [])))
        must(status == 0 and report.startswith("STATE Done\n"), name_of(number), status, errors)


def table_of(folder, number):
    """The deviations along the normal of a part, by feature and touch, in micrometres; none where nothing was measured."""
    status, text, errors = called(folder, "export", "--as", "json", "--setup", "machine.setup", "--record", record_of(number), "part.dmis")
    must(status == (3 if number == UNFINISHED else 0), "table", name_of(number), errors)
    rows = json.loads(text, parse_float=fractions.Fraction)
    return {(it["feature"], it["point"]): it["deviation_along_normal"] for it in rows}


def rounded(number):
    """To the nearest whole number; of two equally near, the one farther from zero."""
    whole = int(abs(number) + fractions.Fraction(1, 2))
    return whole if number >= 0 else -whole


def figures(values):
    """The figures of the summary for these values in millimetres, as texts."""
    all_of = [int(it * 1000) for it in values if it is not None]
    least, most = min(all_of), max(all_of)
    mean = rounded(fractions.Fraction(sum(all_of), len(all_of)))
    out = sum(not LEAST <= it <= MOST for it in all_of)
    return [str(len(all_of)), length(least), length(mean), length(most), length(most - least), str(out)]


def check_page(folder, number):
    words = ("report", "--record", record_of(number), "--setup", "machine.setup", "--limits", "part.limits", "part.dmis")
    status, page, errors = called(folder, *words)
    must(status == (3 if number == UNFINISHED else 0), "page", name_of(number), status, errors)
    must(name_of(number) in page and ("missing" in page) == (number == UNFINISHED), "page", name_of(number), "what is missing")
    must(("Out of limits" in page) == (number == OUT), "page", name_of(number), "what is out of limits")


def audited(folder, number, *key):
    status, text, errors = audit(folder, "--record", record_of(number), *key)
    return status, text, errors.partition("\n")[0]


def check_seals(folder, number):
    """Each run of the part that was not killed has sealed its record."""
    path, key = folder / record_of(number), ("--seal-key", "cell.key")
    text, above, sealed = path.read_bytes(), b"", set()
    for line in text.splitlines(keepends=True):
        connection, _, rest = line.partition(b" ")
        if rest.startswith(b"SEAL "):
            must(rest[5:-1].decode() == hmac.new(KEY, above, hashlib.sha256).hexdigest(), "a seal", name_of(number))
            sealed.add(int(connection))
        above += line
    runs = {2} if number == KILLED else {1, 2} if number == BROKEN else {1}
    must(sealed == runs and rest.startswith(b"SEAL "), "the seals", name_of(number), sealed)
    must(audited(folder, number, *key)[0] == 0, "the audit with its key", name_of(number))
    at = text.index(b"\n", text.index(b" CONTACT ")) - 1
    path.write_bytes(text[:at] + (b"3" if text[at : at + 1] == b"2" else b"2") + text[at + 1 :])
    found = audited(folder, number, *key)
    must(found[2].startswith("dme: J4 BadSeal at line "), "an edited point", name_of(number), found)
    path.write_bytes(text[: text.rindex(b"\n", 0, -1) + 1])
    must(audited(folder, number)[0] == 0 and audited(folder, number, *key)[2].startswith("dme: J4 BadSeal"), "no last seal", name_of(number))
    path.write_bytes(text)


class Page(html.parser.HTMLParser):
    """The page of a summary: its lines with their classes, and for each heading its table and the paths and the box of its chart."""

    def __init__(self, text):
        super().__init__(convert_charrefs=True)
        self.lines, self.parts, self.foreign, self.text = [], [], [], ""
        self.feed(text)
        self.close()

    def handle_starttag(self, tag, attributes):
        given, self.text = dict(attributes), ""
        self.foreign += [tag] if tag in FOREIGN or any(it in ("src", "href", "style") or it.startswith("on") for it in given) else []
        if tag == "p":
            self.lines.append([given.get("class"), ""])
        if tag == "h2":
            self.parts.append({"heading": "", "rows": [], "paths": [], "box": None})
        if tag == "tr":
            self.parts[-1]["rows"].append([])
        if tag == "svg":
            self.parts[-1]["box"] = given["viewbox"].split()
        if tag == "path":
            self.parts[-1]["paths"].append([given.get("class"), given["d"], None])

    def handle_endtag(self, tag):
        if tag == "p":
            self.lines[-1][1] = self.text
        if tag == "h2":
            self.parts[-1]["heading"] = self.text
        if tag == "td":
            self.parts[-1]["rows"][-1].append(self.text)
        if tag == "title" and self.parts:
            self.parts[-1]["paths"][-1][2] = self.text
        self.text = ""

    def handle_data(self, data):
        self.text += data


def opened(folder, number):
    """When the first connection of a part was made."""
    return next(it for it in (folder / record_of(number)).read_text().splitlines() if " OPENED " in it).split()[2]


def check_chart(part, feature, tables, order):
    """Each part that has the feature has its stroke, at its place in time, and all of the chart is in its box."""
    expected = [["zero", f"M0 0.000H{PARTS + 1}", None], *(["limit", f"M0 {length(it)}H{PARTS + 1}", None] for it in (LEAST, MOST))]
    for place, number in enumerate(order, 1):
        values = [int(value * 1000) for (label, _), value in tables[number - 1].items() if label == feature and value is not None]
        if values:
            expected.append([None, f"M{place} {length(min(values))}V{length(max(values))}", name_of(number)])
    must(part["paths"] == expected, "the chart of", feature, part["paths"])
    left, top, width, height = part["box"]
    seen = [micrometres(it) for _, path, _ in expected for it in path.split(" ")[1].partition("H")[0].split("V")]
    must(left == "0" and int(width) == PARTS + 1, "the width of a chart")
    must(-micrometres(top) - micrometres(height) < min(seen) <= max(seen) < -micrometres(top), "the box of", feature, part["box"])


def check_summary_page(folder, words, records, tables, expected):
    status, text, errors = called(folder, *words, "--seal-key", "cell.key", "--as", "html", *records)
    page = Page(text)
    must(status == 3 and not page.foreign and len(errors.splitlines()) == 2, "the page", status, errors, page.foreign)
    out, points = sum(int(it[-1]) for it in expected), sum(int(it[2]) for it in expected)
    starts = ["yes", "no", "no", "yes", None]
    must([it[0] for it in page.lines[:5]] == starts and f"{out} of {points} compared" in page.lines[2][1], "the lines of the page", page.lines[:5])
    must(name_of(UNFINISHED) in page.lines[1][1], "the unfinished part of the page")
    order = sorted(range(1, PARTS + 1), key=lambda it: opened(folder, it))
    *features, parts = page.parts
    must([[it["heading"], *row] for it in features for row in it["rows"] if row] == expected, "the figures of the page")
    for it in features:
        check_chart(it, it["heading"], tables, order)
    must([row[:3] for row in parts["rows"] if row] == [[str(at), name_of(it), opened(folder, it)] for at, it in enumerate(order, 1)], "the parts")


def check_summary(folder):
    tables = [table_of(folder, number) for number in range(1, PARTS + 1)]
    expected = [[feature, str(touch), *figures([it[feature, touch] for it in tables])] for feature, touch in tables[0]]
    words = ("summary", "--setup", "machine.setup", "--limits", "part.limits", "--program", "part.dmis")
    records = [record_of(number) for number in range(1, PARTS + 1)]
    status, text, errors = called(folder, *words, "--as", "csv", *records)
    must(status == 3 and list(csv.reader(io.StringIO(text)))[1:] == expected, "the table of the summary", status, errors)
    check_summary_page(folder, words, records[::-1], tables, expected)
    status, text, errors = called(folder, *words, *records)
    lines = text.splitlines()
    must(status == 3 and lines[0] == f"{PARTS} of {PARTS} records count", "the summary", status, errors)
    must([it for it in lines if it.startswith("unfinished: ")] == [lines[1]] and name_of(UNFINISHED) in lines[1], "the unfinished part", lines[1])
    must(sum(it.endswith(", out 1") for it in lines) == sum(it[-1] == "1" for it in expected) > 0, "what is out of limits")


def measure_batch():
    with room() as folder:
        batch(folder)
    return f"{PARTS} parts"


def batch(folder):
    write_into(folder, {
        "part.dmis": program(), "machine.setup": TOOLS + SHIFTS, "other.setup": TOOLS + "SHIFT 0 0 0\nSHIFT 0 0 0\nSHIFT 0 0 0.030\n",
        "part.limits": LIMITS,
    })
    (folder / "parts").mkdir()
    (folder / "cell.key").write_bytes(KEY)
    setups = ("machine.setup", "other.setup")
    servers, ports = zip(*(listening(folder, "serve", "--setup", it, "--port", "PORT", "--endless") for it in setups))
    machine = f"# cell 3\nSETUP machine.setup\nHOST 127.0.0.1\nPORT {ports[0]}\nWINDOW 4\nRECORDS parts\nSEALKEY cell.key\n"
    (folder / "cell.machine").write_text(machine)
    try:
        for number in range(1, PARTS + 1):
            measured(folder, number, *ports)
    finally:
        for it in servers:
            killed(it)
    names = {record_of(number) for number in range(1, PARTS + 1)}
    must({f"parts/{it.name}" for it in (folder / "parts").iterdir()} == names, "the records of the parts")
    for number in (1, BROKEN, KILLED, UNFINISHED, OUT):
        check_page(folder, number)
        check_seals(folder, number)
    check_summary(folder)


def check_batch():
    return whole("ok batch", measure_batch)


if __name__ == "__main__":
    sys.exit(1 if check_batch()[1] else 0)
