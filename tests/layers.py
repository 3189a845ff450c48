#!/usr/bin/env python3
"""The layers of the crates, their dependencies, and where a change begins: checks crates.txt by its headings, the table of
docs/ARCHITECTURE.md by crates.txt, and the definitions and modules of its other table by the crates' files.

`run` calls this; by itself: tests/layers.py, and tests/layers.py --write to write the table.
"""

import pathlib
import re
import sys

from common import ROOT, kept
from generated import is_present

PAGE = ROOT / "docs" / "ARCHITECTURE.md"

CRATES = ROOT / "crates.txt"
TESTS = "tests and measuring"
USED_BY_NONE = {"dme_program", "dme_c"}


def read(text):
    """The crates that each crate uses, by its name."""
    lines = [it.partition("#")[0].partition(":") for it in text.splitlines()]
    return {name.split()[0]: below.split() for name, colon, below in lines if colon}


def layers_of(text):
    """The crates of each layer, the lowest first, by the headings: a crate uses crates of its own layer and of earlier ones."""
    layers, names = {}, []
    for line in text.splitlines():
        if line.startswith("## "):
            names = layers.setdefault(line.removeprefix("## "), [])
        elif ":" in line and not line.startswith("#"):
            names.append(line.split(":")[0].split()[0])
    return layers


LAYERS = layers_of(CRATES.read_text())


def faults_of(crates):
    """What breaks the rule of the layers. No crate uses one of USED_BY_NONE, or of the tests."""
    level = {it: at for at, names in enumerate(LAYERS.values()) for it in names}
    unused = USED_BY_NONE | set(LAYERS.get(TESTS, []))
    faults = [f"{it} has no layer" for it in sorted(crates.keys() - level)]
    for name in sorted(crates.keys() & level):
        for below in crates[name]:
            if below in unused:
                faults.append(f"{name} uses {below}, which nothing may use")
            elif below in level and level[below] > level[name]:
                faults.append(f"{name} uses {below}, which is of a higher layer")
    return faults


def all_below(name, crates):
    """A crate and all that it stands on."""
    found, new = {name}, [name]
    while new:
        new = [it for it in crates.get(new.pop(), []) if it not in found] + new
        found |= set(new)
    return found


def row(name, crates):
    """What a crate stands on, without what follows from it."""
    def joined(names):
        return " ".join(f"`{it}`" for it in names)

    own = [it for it in crates if it in crates[name]]
    own = [it for it in own if not any(it in all_below(other, crates) for other in own if other != it)]
    return f"| [`{name}`](../crates/{name}/) | {joined(own)} | {joined(it for it in crates[name] if it not in crates)} |\n"


def table(crates):
    """What each crate uses, layer by layer."""
    text = "| Crate | Stands on | Of the toolchain |\n|---|---|---|\n"
    ordered = {it: crates[it] for names in LAYERS.values() for it in names if it in crates}
    for layer, names in LAYERS.items():
        text += f"| **{layer}** | | |\n" + "".join(row(it, ordered) for it in names if it in ordered)
    return text


def faults_of_directions(page):
    """The files that the table of where a change begins names, but that do not exist: `specs/` in one column, `src/` in the next."""
    faults = []
    for definitions, code in re.findall(r"^\| [^|`]* \| ([^|]*) \| ([^|]*) \|$", page, re.MULTILINE):
        for cell, glob in ((definitions, "specs/**/{}.antt"), (code, "src/**/{}.rt")):
            crate = None
            for name in re.findall(r"`(\w+)`", cell):
                if (ROOT / "crates" / name).is_dir():
                    crate = ROOT / "crates" / name
                elif crate is None or not any(crate.glob(glob.format(name))):
                    faults.append(f"{PAGE.relative_to(ROOT)}: `{name}` is no file of its crate")
    return faults


def check_layers():
    """Whether the layers are kept and the table is up to date, and whether planted mistakes are found."""
    crates = read(CRATES.read_text())
    faults = faults_of(crates) + faults_of_directions(PAGE.read_text())
    if not is_present(PAGE, pathlib.Path(__file__).name, table(crates)):
        faults.append(f"{PAGE.relative_to(ROOT)}: the table is not that of crates.txt: tests/layers.py --write")
    upward = crates | {"fixed_um": ["link_world"]}
    on_a_program = crates | {"test_units": ["dme_program"]}
    without_a_layer = crates | {"no_such_crate": []}
    moved = ["| a | `tool_rack`: `Setup` | none |\n", "| a | none | `tool_rack`: `entries`, `Entries` |\n", "| a | `Entries` | none |\n"]
    if not all(faults_of_directions(it) for it in moved) or faults_of_directions("| a | `tool_rack`: `Setups` | `tool_rack`: `entries` |\n"):
        faults.append("a planted file is not found")
    if not all(faults_of(it) for it in (upward, on_a_program, without_a_layer)) or table(upward) == table(crates):
        faults.append("a planted mistake is not found")
    return kept("layers", "layers of crates", faults, "kept")


if __name__ == "__main__":
    sys.exit(1 if check_layers()[1] else 0)
