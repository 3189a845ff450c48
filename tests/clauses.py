#!/usr/bin/env python3
"""Which code has no clause: the functions with no `ensures` of their own or from a trait, file by file, as docs/AUDITOR.md lists them.

A method of a trait of the repository has a clause if the trait's method has one; a method of another trait, if the impl specifies it by a
`ghost` item. `run` calls this; by itself: tests/clauses.py, and tests/clauses.py --write to write the list.
"""

import pathlib
import re
import sys

from common import ROOT, kept
from generated import is_present

PAGE = ROOT / "docs" / "AUDITOR.md"
TESTS = {"test_calls", "test_sessions", "test_units", "bench_world"}
FUNCTION = re.compile(r"^ *(?:#\[.*\] *)?(?:pub(?:\(\w+\))? )?(?:unsafe )?(?:extern \"C\" )?fn (\w+)", re.MULTILINE)
ITEM = re.compile(r"^(?:pub(?:\(\w+\))? )?(?:unsafe )?(impl\b[^{]*|trait [^{]*)\{\n(.*?)^\}", re.MULTILINE | re.DOTALL)


def heads(text):
    """Where each function begins, its name, and its head: everything up to its body or its semicolon."""
    starts = [it.start() for it in FUNCTION.finditer(text)]
    for start, end in zip(starts, starts[1:] + [len(text)]):
        lines = []
        for line in text[start:end].splitlines():
            lines.append(line)
            is_clause = line.strip().startswith(("ensures", "requires"))
            if line.strip() == "{" or line.endswith(";") or (line.endswith("{") and not is_clause):
                break
        yield start, FUNCTION.match(text, start)[1], "\n".join(lines)


def traits_of(texts):
    """For each trait: whether each of its functions has a clause."""
    items = [it for text in texts for it in ITEM.findall(text) if it[0].startswith("trait")]
    return {re.match(r"trait (\w+)", head)[1]: {name: "ensures" in it for _, name, it in heads(body)} for head, body in items}


def said_by_traits(text, traits):
    """Where each function begins that has a clause from a trait."""
    places = set()
    for item in ITEM.finditer(text):
        trait = re.search(r"([\w:]+)(?:<[^{]*>)? for ", item[1])
        said = traits.get(trait[1].split("::")[-1]) if trait else {}
        for start, name, _ in heads(item[2]):
            if said.get(name, False) if said is not None else "ghost " in item[2]:
                places.add(item.start(2) + start)
    return places


def bare(text, traits):
    """The functions of a file that have no clause, and how many it has."""
    functions, said = list(heads(text)), said_by_traits(text, traits)
    return [name for start, name, head in functions if "ensures" not in head and start not in said], len(functions)


def table(texts):
    """The files with such functions, crate by crate."""
    traits = traits_of(texts.values())
    rows = {}
    for path, text in texts.items():
        names, count = bare(text, traits)
        if names and path.parts[1] not in TESTS:
            rows.setdefault(path.parts[1], []).append(f"`{path.name}` {len(names)} of {count}")
    return "| Crate | Functions without a clause |\n|---|---|\n" + "".join(f"| `{it}` | {', '.join(files)} |\n" for it, files in rows.items())


def check_clauses():
    """Whether the list is up to date, and whether removing or adding a clause changes it."""
    texts = {it.relative_to(ROOT): it.read_text() for it in sorted(ROOT.glob("crates/*/src/**/*.rt"))}
    faults = []
    if not is_present(PAGE, pathlib.Path(__file__).name, table(texts)):
        faults.append(f"{PAGE.relative_to(ROOT)}: the list is not the present one: tests/clauses.py --write")
    planted = [
        ("pub fn one() -> u8 {\n    1\n}\n", ["one"]),
        ("pub fn one() -> u8\n    ensures { result ≡ 1 }\n{\n    1\n}\n", []),
        ("impl Said for One {\n    fn say(&self) -> u8 {\n        1\n    }\n}\n", []),
        ("pub trait Said {\n    fn say(&self) -> u8;\n}\n\nimpl Said for One {\n    fn say(&self) -> u8 {\n        1\n    }\n}\n", ["say"]),
        ("impl Silent for One {\n    fn say(&self) -> u8 {\n        1\n    }\n}\n", ["say"]),
    ]
    traits = traits_of(["trait Said {\n    fn say(&self) -> u8\n        ensures { result ≡ 1 };\n}\n", "pub trait Silent {\n    fn say(&self) -> u8;\n}\n"])
    faults += [f"planted: {bare(text, traits)[0]}, not {names}" for text, names in planted if bare(text, traits)[0] != names]
    return kept("clauses", "code without a clause", faults, "as listed")


if __name__ == "__main__":
    sys.exit(1 if check_clauses()[1] else 0)
