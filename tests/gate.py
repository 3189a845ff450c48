#!/usr/bin/env python3
"""Writes docs/GATE.md: how long the proof of each crate takes, from tools/times.txt, and how many edits it has.

tools/times.txt has lines of a crate, its seconds of processor time and the commit, as `tools/times` sampled them during a whole run of
`tests/run`; its comments describe the runs. `run` calls this; by itself: tests/gate.py, and tests/gate.py --write to write the page.
"""

import sys

from common import ROOT, kept
from edits import edits_of
from generated import is_present

PAGE = ROOT / "docs" / "GATE.md"
TIMES = ROOT / "tools" / "times.txt"


def times():
    """The seconds of each crate with the commit that was measured, and what is recorded about the runs."""
    lines = TIMES.read_text().splitlines() if TIMES.exists() else []
    seconds = {name: (int(value), commit) for name, value, commit in (it.split() for it in lines if it and not it.startswith("#"))}
    return seconds, [it.removeprefix("# ") for it in lines if it.startswith("# ")]


def table():
    """What is known about the runs, and a row for each crate."""
    seconds, said = times()
    text = "".join(f"- {it}\n" for it in said)
    text += "\n| Crate | Processor time of its proofs, seconds | In the run of | Edits |\n|---|---|---|---|\n"
    crates = sorted(it for it in (ROOT / "crates").iterdir() if (it / "src").is_dir())
    for crate in crates:
        time, commit = seconds.get(crate.name, ("?", ""))
        text += f"| `{crate.name}` | {time} | {commit} | {len(edits_of(crate))} |\n"
    total = f"{sum(it for it, _ in seconds.values())}" if seconds else "not measured"
    return text + f"| together | {total} | | {sum(len(edits_of(it)) for it in crates)} |\n"


def check_gate():
    """Whether the page is up to date."""
    faults = [] if is_present(PAGE, "gate.py", table()) else ["tests/gate.py --write"]
    return kept("gate", "times and counts of the gate", faults, "as listed")


if __name__ == "__main__":
    sys.exit(1 if check_gate()[1] else 0)
