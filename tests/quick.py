"""Tries rows of tests/program/ without any proof: those that read standard input alone, and `loop` over TCP. `rt try` builds the
program with checks and runs it once for each; three of them share the rows. Printed text and status are compared, what is said on standard error is
not.

`tests/run quick` calls this.
"""

import contextlib
import re
import subprocess

from common import EXAMPLES, ROOT, room
from rows import Row, program_rows

CRATE = ROOT / "crates" / "dme_program"
SLOW = ("lower_refuses_an_endless_loop",)
SETUP = EXAMPLES / "bolt_circle.setup"
ENDED = re.compile(r"case=(\S+) run=ended status=(\d+) .*output=expected")


def loop_row():
    """A program over a connection of the process to itself; its setup is given to each try."""
    row = Row("loop_over_a_connection", ["loop", "--setup", SETUP.name])
    row.texts = {"stdin": (EXAMPLES / "bolt_circle.flat").read_bytes(), "stdout": (EXAMPLES / "bolt_circle.looped").read_bytes()}
    return row


def is_quick(row):
    """Whether a row needs nothing but its words, one a line, and standard input, and takes little time."""
    if row.words[:1] in (["run"], ["serve"], ["watch"]) or row.name in SLOW or not all(it and "\\" not in it for it in row.words):
        return False
    return not (row.further or row.given or row.left or row.links or set(row.lines) - {"status"} or set(row.texts) - {"stdin", "stdout", "stderr"})


def begun(rows, folder):
    """A try of rows, whose texts are put into a folder."""
    for row in rows:
        (folder / row.name).write_bytes(row.texts.get("stdin", b""))
        (folder / f"{row.name}.args").write_text("".join(f"{it}\n" for it in row.words))
        (folder / f"{row.name}.stdout").write_bytes(row.texts.get("stdout", b""))
    words = ["rt", "try", "--steps", "1", "--data", f"{SETUP.name}={SETUP}", "--cases", str(folder)]
    return subprocess.Popen(words, cwd=CRATE, stdout=subprocess.DEVNULL, stderr=subprocess.PIPE, text=True, errors="replace")


def check_quick():
    rows = [loop_row()] + [it for it in program_rows().values() if is_quick(it)]
    expected = {(it.name, it.lines.get("status", "0")) for it in rows}
    with contextlib.ExitStack() as rooms:
        folders = [rooms.enter_context(room()) for _ in range(3)]
        tries = [begun(rows[at::3], it) for at, it in enumerate(folders)]
        said = [it.communicate()[1] for it in tries]
    found = {it for text in said for it in ENDED.findall(text)}
    for name, _ in sorted(expected - found):
        print(f"row {name}: not as expected")
    return len(expected & found), len(expected - found)
