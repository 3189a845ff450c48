"""Reads the rows of tests/program/. `run` describes what a row is, and how it is written. A mistake in a file ends the script, with its line.

Texts with all escapes and with mistakes are read in each run. `run` calls this; by itself: tests/rows.py
"""

import functools
import pathlib
import re
import sys

from common import EXAMPLES, TESTS, counted

ROWS = TESTS / "program"
SHARED = ROWS / "shared.rows"
INDENT = "    "
FURTHER = ("serve", "again")
LINES = ("from", "to", "memory", "status")
TEXTS = ("stdin", "stdin_again", "stdout", "stderr", "peer")
FILES = {"with": "given", "leaves": "left"}
HEAD = re.compile(rf"(?:({'|'.join(FURTHER)}) )?([a-z_]+)(?: ([^:]+))?:(?: (.+))?")
WORD = re.compile(r"""'[^']*'|"[^"]*"|[^\s'"]\S*""")
ESCAPE = re.compile(rb"\\(?:\{(\d+) ([^{}]*)\}|x([0-9a-f]{2})|([\s\S]))")
ESCAPED = {b"\\": b"\\", b"r": b"\r", b"n": b"\n", b"t": b"\t", b"\n": b""}


class Row:
    """The words of a `dme`, its other lines and texts by key; the files of its folder before and afterwards, by name; where its links lead, by
    name; and the further `dme`s in its folder, by key."""

    def __init__(self, name, words=()):
        self.name, self.words = name, list(words)
        self.lines, self.texts, self.given = {}, {}, {}
        self.left, self.links, self.further = {}, {}, {}

    def write_into(self, folder):
        """Writes the files that are given, and makes the links."""
        for name, text in self.given.items():
            path = pathlib.Path(folder) / name
            path.parent.mkdir(parents=True, exist_ok=True)
            path.write_bytes(text)
        for name, target in self.links.items():
            (pathlib.Path(folder) / name).symlink_to(target)


def words_of(line):
    """The words of a line, without the quotes around a word."""
    words = WORD.findall(line)
    if " ".join(words) != line:
        raise ValueError("its words cannot be separated")
    return [it[1:-1] if it[0] in "'\"" else it for it in words]


def unescaped(text):
    def piece(found):
        times, repeated, code, other = found.groups()
        if times:
            return unescaped(repeated) * int(times)
        if other and other not in ESCAPED:
            raise ValueError(f"there is no such escape: {found[0]}")
        return bytes.fromhex(code.decode()) if code else ESCAPED[other]

    return ESCAPE.sub(piece, text)


def heads_of(file):
    """The lines of a file that are not indented, each with its number and the indented lines below it. An empty line between these is one of
    them."""
    heads = [(0, "", [])]
    for number, line in enumerate(file.split("\n"), 1):
        if line.startswith(INDENT) or not line:
            heads[-1][2].append(line.removeprefix(INDENT))
        elif not line.startswith("#"):
            heads.append((number, line, []))
    for number, line, below in heads:
        while below and not below[-1]:
            below.pop()
        if line or below:
            yield number, line, below


class Reader:
    """The rows of a file, by name, and the texts that it may name."""

    def __init__(self, place, file, shared=()):
        self.named = dict(shared)
        self.rows = {}
        self.row = None
        self.seen = set()
        for number, line, below in heads_of(file):
            try:
                self.take(line, below)
            except ValueError as why:
                raise SystemExit(f"{place}:{number}: {line}: {why}") from why

    def take(self, line, below):
        if line.startswith("== "):
            self.row = Row(line[3:])
            self.seen = set()
            if below or self.rows.setdefault(self.row.name, self.row) is not self.row:
                raise ValueError("it has a text below it" if below else "there is such a row already")
            return
        found = HEAD.fullmatch(line)
        if not found or found.groups()[:3] in self.seen:
            raise ValueError("this line is there already" if found else "it has no key")
        self.seen.add(found.groups()[:3])
        further, key, name, value = found.groups()
        if value and below:
            raise ValueError("it has a value, and a text below it")
        text = "".join(it + "\n" for it in below).encode()
        text = text if key == "peer" else unescaped(text)
        if self.row is None:
            self.name(key, name, value, text)
        elif further and (key in FILES or key in ("link", "peer")):
            raise ValueError("only the row itself has this key")
        else:
            row = self.row.further.setdefault(further, Row(f"{further} of {self.row.name}")) if further else self.row
            self.set(row, key, name, value, text)

    def name(self, key, name, value, text):
        """Names a text for the rows below."""
        if key != "file" or not name or value:
            raise ValueError("it is not in a row")
        if name in self.named or (EXAMPLES / name).exists():
            raise ValueError("there is such a text already")
        self.named[name] = text

    def set(self, row, key, name, value, text):
        if key in FILES and bool(name) != bool(value):
            files = getattr(row, FILES[key])
            for it, own in self.files_named(value) if value else [(name, text)]:
                if it in files:
                    raise ValueError(f"there is a file {it} already")
                files[it] = own
        elif key == "link" and name and value:
            row.links[name] = value
        elif key == "args" and not name and not text:
            row.words = words_of(value or "")
        elif key in LINES and value and not name:
            row.lines[key] = value
        elif key in TEXTS and not name:
            row.texts[key] = self.text_named(value) if value else text
        else:
            raise ValueError("there is no such key of this form")

    def files_named(self, value):
        for it in value.split(", "):
            text, _, name = it.partition(" as ")
            yield name or text, self.text_named(text)

    def text_named(self, name):
        """A text of this file, of the shared ones, or of the examples."""
        if name in self.named:
            return self.named[name]
        if not (EXAMPLES / name).is_file():
            raise ValueError(f"there is no text {name}")
        return (EXAMPLES / name).read_bytes()


def read(path, shared=()):
    if path.suffix != ".rows":
        raise SystemExit(f"{path}: this is no file of rows")
    return Reader(path, path.read_bytes().decode(), shared)


@functools.cache
def program_rows():
    """All rows of tests/program/, by name."""
    rows, shared = {}, read(SHARED).named
    for path in sorted(it for it in ROWS.iterdir() if it != SHARED):
        for name, row in read(path, shared).rows.items():
            if rows.setdefault(name, row) is not row:
                raise SystemExit(f"{path}: there is a row {name} in another file")
    return rows


WHOLE = r"""
# A comment.
file A:
    a \{3 x}\\ \x00\xff\r
    \{2 \t\n}\

    ä\

== one
args: check '' "a 'b'"
stdin: A
with: A, A as f/b
with p "1":

link l: f/b
leaves c:
serve args: serve
serve status: 1
peer:
    >> a\r\n
"""
REFUSED = (  # lines of a row, and of what is before a row, with a mistake
    "args: 'a", "arg: a", "args", "args: a\nargs: a", "status: 0\nstatus: 0", "status:\n    1", "status 1: 1", "stdin: B", "stdin: A\n    a",
    "link: l", "link l:", "serve link l: a", "with: B", "with:", "with b: A", "with: A\nwith A:", "with: A, machine.setup as A", "stdout:\n  a",
    "stdout:\n    \\q", "stdout:\n    \\{a}", "file B:\n    b", "peers args: a", "serve with: A", "== one", "    a",
)
REFUSED_BEFORE = ("file A:\n    a\nfile A:\n    a", "file A: b", "file machine.setup:\n    a", "args: a", "    a")


def is_whole(row):
    text = b"a xxx\\ \0\xff\r\n\t\n\t\n\n\xc3\xa4"
    serve = row.further["serve"]
    return (row.words == ["check", "", "a 'b'"] and row.texts == {"stdin": text, "peer": b">> a\\r\\n\n"}
            and row.given == {"A": text, "f/b": text, 'p "1"': b""} and row.left == {"c": b""} and row.links == {"l": "f/b"}
            and serve.words == ["serve"] and serve.lines == {"status": "1"})


def is_refused(before, lines):
    try:
        Reader("", f"{before}\n\n== one\n{lines}\n")
    except SystemExit:
        return True
    return False


def check_reader():
    text = "file A:\n    a"
    is_well = {"WHOLE": is_whole(Reader("", WHOLE).rows["one"]), "args: a": not is_refused(text, "args: a")}
    is_well |= {it: is_refused(text, it) for it in REFUSED} | {f"{it}, before a row": is_refused(it, "args: a") for it in REFUSED_BEFORE}
    wrong = [it for it in is_well if not is_well[it]]
    for it in wrong:
        print(f"rows: {it!r} is not read as it must be")
    return counted("texts of rows", len(wrong), len(is_well))


if __name__ == "__main__":
    sys.exit(1 if check_reader()[1] else 0)
