"""Makes the pictures of docs/pictures/: drawings of five programs of 3 to 400 points, as Debian's chromium shows them.

Each program is run by `dme run` on the machine of `dme serve`, whose surface differs from the nominal one by up to 9 micrometres in each axis,
and its record is drawn by `dme export --as svg`. A person looks at them; no test reads them. By itself: tests/pictures.py
"""

import math
import random

from browser import run_browser
from common import EXAMPLES, ROOT, called, killed, must, room, run_words, serving

PICTURES = ROOT / "docs" / "pictures"


def plate():
    """A plate: eight points of its top, and six bores of five points."""
    lines = ["DMISMN/'PLATE',05.2", "SNSLCT/S(P1)", "MEAS/PLANE,F(TOP),8"]
    for number in range(8):
        place = f"{10 + 40 * (number % 4)},{10 + 80 * (number // 4)}"
        lines += [f"GOTO/{place},40", f"PTMEAS/CART,{place},20,0,0,1"]
    lines.append("ENDMES")
    for bore in range(6):
        x, y = 70 + 45 * math.cos(math.radians(60 * bore)), 50 + 30 * math.sin(math.radians(60 * bore))
        lines += [f"GOTO/{x:.3f},{y:.3f},40", f"MEAS/CIRCLE,F(BORE{bore + 1}),5", f"GOTO/{x:.3f},{y:.3f},15"]
        for touch in range(5):
            i, j = math.cos(math.radians(72 * touch)), math.sin(math.radians(72 * touch))
            lines.append(f"PTMEAS/CART,{x + 8 * i:.3f},{y + 8 * j:.3f},15,{-i:.6f},{-j:.6f},0")
        lines += ["ENDMES", f"GOTO/{x:.3f},{y:.3f},40"]
    return "\n".join([*lines, "ENDFIL", ""])


def sheet():
    """A bent sheet: sixteen rows of 25 points."""
    lines = ["DMISMN/'SHEET',05.2", "SNSLCT/S(P1)"]
    for row in range(16):
        lines.append(f"MEAS/LINE,F(ROW{row + 1}),25")
        lines += [f"PTMEAS/CART,{12 * at},{14 * row},{10 + 6 * math.sin(at / 6) * math.cos(row / 5):.3f},0,0,1" for at in range(25)]
        lines.append("ENDMES")
    return "\n".join([*lines, "ENDFIL", ""])


def setup():
    numbers = random.Random(3)
    shifts = ["SHIFT " + " ".join(f"{numbers.randint(-9, 9) / 1000:.3f}" for _ in range(3)) for _ in range(40)]
    return "\n".join(["TOOL P1", "TOOL P2", "FRAME PART 100 0 0", *shifts, ""])


def drawn(folder, program):
    """The drawing of a program that was measured."""
    (folder / "part.dmis").write_text(program)
    (folder / "machine.setup").write_text(setup())
    server, port = serving(folder)
    status, _, error = called(folder, *run_words(port, "--record", "part.record", "--part", "0042/7"))
    killed(server)
    must(status == 0, "run", error)
    return called(folder, "export", "--as", "svg", "--record", "part.record", "--setup", "machine.setup", "part.dmis")[1]


def make():
    PICTURES.mkdir(exist_ok=True)
    programs = {name: (EXAMPLES / f"{name}.dmis").read_text() for name in ("circle", "two_frames", "bracket")}
    for name, program in (programs | {"plate": plate(), "sheet": sheet()}).items():
        with room() as folder:
            (folder / "part.svg").write_text(drawn(folder, program))
            run_browser(folder, "--window-size=1123,794", "--hide-scrollbars", f"--screenshot={PICTURES / name}.png", f"file://{folder / 'part.svg'}")


if __name__ == "__main__":
    make()
