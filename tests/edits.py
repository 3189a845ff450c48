"""Compares tools/edits.txt, which says with which content the edits of each crate were last tried, with the present content.

Each crate with edits needs a line, whose checksum is that of the crate's present files, and whose count is that of the crate's edits.
`tools/edits` writes the lines. `run` calls this; by itself: tools/edits --stale
"""

import hashlib
import re

from common import ROOT, counted

RECORD = ROOT / "tools" / "edits.txt"
PARTS = ("src", "specs", "proofs", "must-fail*")
HEAD = """\
# With which content the edits of a crate were last tried, each of which a goal then refused. `tools/edits` writes this file.
# A line: the crate, the SHA-256 of its files in src/, specs/, proofs/ and must-fail*/ (names, and words but for comments and imports), how many
# edits it has.
# The crates below it are not in its checksum, although an edit may be refused by what a contract below promises.
"""


def edits_of(crate):
    """The edits of a crate, given by its folder."""
    return sorted(crate.glob("must-fail*/*.edit"))


def crates_with_edits():
    return sorted({it.parent.parent.name for it in ROOT.glob("crates/*/must-fail*/*.edit")})


def without_prose(path):
    """The bytes of a file; of a source, a definition or a proof, its words, but for comments, imports and, of the latter two, the lines that name
    modules. What an import calls a type does not count where a name is written with it, as in `kind.PtMeas`."""
    text = path.read_bytes()
    if path.suffix not in (".rt", ".antt"):
        return text
    comment = "//" if path.suffix == ".rt" else "--"
    kept, is_import = [], False
    for line in text.decode().splitlines():
        word = line.strip()
        begins = re.match(r"(ghost )?use " if path.suffix == ".rt" else r"(unfoldable )?(pub )?(use|mod) ", word) is not None
        if not (is_import or begins or not word or word.startswith(comment)):
            kept.append(line if path.suffix == ".rt" else re.sub(r"\b\w+\.(?=[A-Z])", "", line))
        # An import of a source ends with a semicolon, perhaps some lines below.
        is_import = path.suffix == ".rt" and (is_import or begins) and not word.endswith(";")
    return " ".join("\n".join(kept).split()).encode()


def content_of(crate):
    """What the line of a crate records of its content: the checksum and the count of edits."""
    files = {it.relative_to(crate).as_posix(): it for part in PARTS for it in crate.glob(f"{part}/**/*") if it.is_file()}
    whole = hashlib.sha256()
    for name in sorted(files):
        text = without_prose(files[name])
        if text:
            whole.update(f"{name}\n{len(text)}\n".encode() + text)
    return f"{whole.hexdigest()} {len(edits_of(crate))}"


def recorded():
    """What the lines record, by crate."""
    lines = RECORD.read_text().splitlines() if RECORD.exists() else []
    return dict(it.partition(" ")[::2] for it in lines if it and not it.startswith("#"))


def record(name, content):
    """Writes the line of a crate."""
    lines = recorded() | {name: content}
    RECORD.write_text(HEAD + "".join(f"{it} {lines[it]}\n" for it in sorted(lines)))


def stale():
    """The crates whose line is out of date, and those that have edits and no line."""
    lines = recorded()
    changed = [it for it in sorted(lines) if lines[it] != content_of(ROOT / "crates" / it)]
    return changed, [it for it in crates_with_edits() if it not in lines]


def check_edits():
    changed, untried = stale()
    for name in changed + untried:
        print(f"edits of {name}: not tried with its present content: tools/edits {name}")
    return counted("edits that are alive", len(changed + untried), len(recorded().keys() | crates_with_edits()), " crates")
