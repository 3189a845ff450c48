"""How far a run is, on a terminal and elsewhere: `dme run --progress` against `dme serve`, its standard error a pseudo-terminal or a pipe.

On the terminal it is one line that is written anew: each after the first begins with going up a line and erasing it. Its features, its touches
and its bar are computed here from the program; its times may be any, but the last has nothing left. Nothing else may be shown but
texts for the operator. What a screen shows in the end is read by a small terminal here, a wide one and one that is narrower than the line.
In a pipe there is a line for each feature. `run` calls this; by itself: tests/terminal.py
"""

import os
import pty
import re
import subprocess
import sys

from common import EXAMPLES, PROGRAM, killed, listed, run_words, serving

SECONDS = 20
ANEW, CUT, END = "\x1b[1A\x1b[2K", "\x1b[?7l", "\x1b[?7h"
CONTROL = re.compile(r"\x1b\[1A|\x1b\[2K|\x1b\[\?7[lh]|\n|[ -~]")
LINE = re.compile(r"\[([#-]{20})\] (\d+) of (\d+) features, (\d+) of (\d+) touches, \d+:[0-5]\d gone(?:, (\d+:[0-5]\d) left)?")
PROGRAMS = ("two_frames.dmis", "circle.dmis", "bracket.dmis")


def blocks_of(program):
    """The labels of a program's features, and how many touches each has."""
    return [(label, int(count)) for label, count in re.findall(r"^MEAS/\w+,F\((\w+)\),(\d+)", (EXAMPLES / program).read_text(), re.M)]


def shown(program, is_terminal):
    """What a run shows on standard error."""
    read, write = pty.openpty() if is_terminal else os.pipe()
    server, port = serving(EXAMPLES)
    try:
        run = [PROGRAM, *run_words(port, "--progress", program=program)]
        subprocess.run(run, cwd=EXAMPLES, stdin=subprocess.DEVNULL, stdout=subprocess.DEVNULL, stderr=write, timeout=SECONDS, check=True)
        text = os.read(read, 1_000_000).decode().replace("\r\n", "\n")
    finally:
        killed(server)
        os.close(read)
        os.close(write)
    return "".join(it for it in text.splitlines(True) if not it.startswith("dme: line "))


def screen(text, columns):
    """The rows that a terminal of this width has in the end, which knows no more than is written to it here."""
    rows, row, column, wraps = [""], 0, 0, True
    for it in CONTROL.findall(text):
        if it == "\n":
            row, column = row + 1, 0
            rows += [""] * (row == len(rows))
        elif it == "\x1b[1A":
            row -= 1
        elif it == "\x1b[2K":
            rows[row] = ""
        elif it in (CUT, END):
            wraps = it == END
        else:
            if column == columns and wraps:
                row, column = row + 1, 0
                rows += [""] * (row == len(rows))
            column = min(column, columns - 1)
            rows[row] = rows[row][:column].ljust(column) + it + rows[row][column + 1 :]
            column += 1
    return rows


def is_paced(program):
    """Whether a run shows its features on a terminal as one line."""
    text = shown(program, True)
    blocks, lines = blocks_of(program), text.split("\n")
    touches = sum(count for _, count in blocks)
    if lines.pop() or len(lines) != len(blocks):
        return False
    for number, line in enumerate(lines, 1):
        begin = ANEW + CUT if number > 1 else CUT
        if not line.startswith(begin) or not line.endswith(END):
            return False
        plain = line.removeprefix(begin).removesuffix(END)
        found = LINE.fullmatch(plain)
        done = sum(count for _, count in blocks[:number])
        bar = "#" * (20 * done // touches) + "-" * (20 - 20 * done // touches)
        if not found or found.groups()[:5] != (bar, str(number), str(len(blocks)), str(done), str(touches)):
            return False
    is_one_row = screen(text, 200) == [plain, ""] and screen(text, 40) == [plain[:39] + plain[-1], ""]
    return is_one_row and found.group(6) == "0:00"


def is_listed(program):
    """Whether it shows a line for each feature elsewhere."""
    blocks = blocks_of(program)
    return shown(program, False) == "".join(f"feature {n} of {len(blocks)}: {label}\n" for n, (label, _) in enumerate(blocks, 1))


def check_terminal():
    return listed("runs on a terminal", "progress of", PROGRAMS, lambda it: is_paced(it) and is_listed(it))


if __name__ == "__main__":
    sys.exit(1 if check_terminal()[1] else 0)
