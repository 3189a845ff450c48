"""Runs that are killed at any moment and started again from their record.

A program of 40 features is run against `dme serve` with windows of 1, 4 and 16. The run is killed (SIGKILL) twice, at moments of a fixed
sequence spread over the time that an undisturbed run takes, and is started again from its record until it is Done. After each kill the whole
lines of the record are read here, by a second implementation of docs/FILES.md; then:

- no feature whose COMPLETED line was whole is lost or measured twice;
- the features of the record are those of the program, each with the points of its last contacts;
- the audit of the record's features over the record's contacts answers RUNS, and over the server's contacts too;
- what the server reported is a prefix of what it did on that connection, for each connection;
- each connection begins with what the record notes of it: the program that ran, the operator, the digests of both files, the server and the
  time; each feature has a time that is not before the one above it, and the end of the last run is noted as done.

Likewise with a features file in place of the record, which grows by each completed feature: no feature whose END was whole is lost, and the
audit of the file over the server's contacts answers RUNS.

And the server is killed: its contacts file has each act that it reported, and the audit of what the record completed answers RUNS.

`run` calls this with a few moments; by itself: tests/killed.py [MOMENTS], which spreads that many over each window.
"""

import collections
import hashlib
import re
import socket
import subprocess
import sys
import time

from common import CONTACTS, PROGRAM, counted, dme, ended, killed, must, must_have_runs, room, run_words, serving, text_of, tried
from hostile import Fixed

WINDOWS = (1, 4, 16)
FEATURES, TOUCHES = 40, 3
MOMENTS = 10
SETUP = "TOOL P1\nTOOL P2\nFRAME PART 100 50 10\nSHIFT 0.002 0 0\nSHIFT 0 0 0.001\n"


def program():
    """40 features of three touches, in two frames, with two tools."""
    lines = ["DMISMN/'KILLED',05.2", "UNITS/MM", "MODE/PROG,MAN", "SNSLCT/S(P1)"]
    for number in range(FEATURES):
        if number == FEATURES // 2:
            lines += ["SNSLCT/S(P2)", "RECALL/D(PART)"]
        lines += [f"MEAS/POINT,F(F{number}),{TOUCHES}"]
        for touch in range(TOUCHES):
            lines += [f"GOTO/{number},{touch},5", f"PTMEAS/CART,{number},{touch},0,0,0,1"]
        lines += ["ENDMES"]
    return "\n".join([*lines, "ENDFIL"]) + "\n"


def part():
    """A new folder with this program and its machine."""
    return room({"machine.setup": SETUP, "part.dmis": program()})


RECORD = ("--record", "part.record", "--part", "0042/7", "--operator", "A. B.")
BEGIN = ("BY", "OPERATOR", "PROGRAM", "SETUP", "OPENED")
NOTES = (*BEGIN, "DATED", "LEFT")
TIME = re.compile(r"\d{4}-\d\d-\d\dT\d\d:\d\d:\d\d\.\d{3}Z")
LEDGER = ("--features", "part.features")


def begun_run(folder, port, window, kept):
    return dme(folder, *run_words(port, "--window", str(window), *kept))


class Record:
    """What the whole lines of a record mean."""

    def __init__(self, text):
        lines = text.split("\n")[:-1]
        self.asked, self.told, self.features, self.refused, self.notes = [], [], [], [], []
        if "END" not in lines:
            return
        end = lines.index("END")
        must(lines[:2] == ["DME-RECORD 2", "PART 0042/7"], "head", lines[:2])
        for line in lines[2:end]:
            word, *fields = line.split(" ")
            if word == "FEATURE":
                self.asked.append((fields[0], []))
            else:
                self.asked[-1][1].append(" ".join(fields))
        for line in lines[end + 1:]:
            self.take(*line.split(" ", 2))

    def take(self, number, word, rest=""):
        if word == "COMPLETED":
            label, touches = self.asked[len(self.features)]
            run = [it for it in self.told if it[1] == "CONTACT"][-len(touches):]
            must(rest == label, "label", rest)
            for (at, _, fields), touch in zip(run, touches):
                must(at == number and fields.startswith(touch + " "), "contact", at, fields, "not", touch)
            self.features.append((label, number, run, touches))
        elif word == "REFUSED":
            self.refused.append((number, rest))
        elif word in NOTES:
            self.notes.append((int(number), word, rest, len(self.features)))
        else:
            self.told.append((number, word, rest))

    def contacts_text(self):
        return CONTACTS + "".join(" ".join(it).rstrip() + "\n" for it in self.told)

    def features_text(self):
        text = "DME-FEATURES 2\n"
        for label, number, run, touches in self.features:
            frame = touches[-1].split(" ")
            frame = " ".join(frame[frame.index("P") if "P" in frame else -1:])
            text += f"FEATURE {label} {len(run)} {number} {frame}\n"
            text += "".join(" ".join(fields.split(" ")[-3:]) + "\n" for _, _, fields in run) + "END\n"
        return text


def read(folder):
    return Record(text_of(folder / "part.record"))


def by_connection(pairs):
    """What there is of each connection, in order, by its number."""
    found = collections.defaultdict(list)
    for number, it in pairs:
        found[int(number)].append(it)
    return found


def killed_run(folder, port, window, moment, kept):
    """A run that is killed after that many seconds, unless it ends earlier: how it ended; None if it was killed."""
    process = begun_run(folder, port, window, kept)
    try:
        return ended(process, seconds=moment)
    except subprocess.TimeoutExpired:
        killed(process)
        return None


def ended_server(server, port):
    """Connects until the server has had all its connections: a run may be killed before it makes one."""
    while server.poll() is None:
        try:
            socket.create_connection(("127.0.0.1", port), 1).close()
        except OSError:
            pass
        time.sleep(0.01)
    server.communicate()


def must_be_prefix(folder):
    """On each connection of the record, what was reported is a prefix of what the server did on one of its connections."""
    server = by_connection(it.split(" ", 1) for it in (folder / "server.contacts").read_text().splitlines()[1:])
    mine = by_connection((number, f"{word} {rest}".rstrip()) for number, word, rest in read(folder).told)
    for number, told in mine.items():
        must(any(did[:len(told)] == told for did in server.values()), "connection", number, "is no prefix")


def held_in(folder, kept):
    """How many features the file of a run holds whole."""
    if kept == RECORD:
        return len(read(folder).features)
    lines = text_of(folder / "part.features").split("\n")[:-1]
    must(lines[:1] in ([], ["DME-FEATURES 2"]), "first line", lines[:1])
    return lines.count("END")


def must_be_recorded(folder):
    """The record of a run that is Done is whole, and its audit answers RUNS over both ledgers."""
    record = read(folder)
    must([it[0] for it in record.features] == [f"F{it}" for it in range(FEATURES)], "features", len(record.features))
    must(not record.refused, "an honest machine is said to have refused", record.refused)
    (folder / "record.contacts").write_text(record.contacts_text())
    (folder / "part.features").write_text(record.features_text())
    must_have_runs(folder, FEATURES, "--features", "part.features", "--contacts", "record.contacts")
    must_be_prefix(folder)


def digest(folder, name):
    return hashlib.sha256((folder / name).read_bytes()).hexdigest()


def must_be_noted(folder, port):
    """Each connection's notes are those of its run, in their order, and the features of each have their time."""
    record = read(folder)
    given = {"OPERATOR": "A. B.", "PROGRAM": f"part.dmis {digest(folder, 'part.dmis')}", "SETUP": f"machine.setup {digest(folder, 'machine.setup')}"}
    last, dated = "", 0
    for connection in sorted({it[0] for it in record.notes}):
        notes = [it for it in record.notes if it[0] == connection]
        words = [it[1] for it in notes]
        must(tuple(words[:5]) == BEGIN[:len(words)] and set(words[5:]) <= {"DATED", "LEFT"}, "notes of", connection, words[:8])
        for _, word, text, features in notes:
            must(given.get(word, text) == text, "note", word, text)
            if word in ("OPENED", "DATED", "LEFT"):
                time, _, rest = text.partition(" ")
                must(TIME.fullmatch(time) and time >= last, "time", word, text, "after", last)
                must(word != "OPENED" or rest == f"127.0.0.1 {port}", "server", text)
                must(word != "DATED" or features > dated, "features dated", features, dated)
                last, dated = time, features if word == "DATED" else dated
    _, word, text, _ = record.notes[-1]
    must(word == "LEFT" and text.endswith(" done"), "end", word, text)


def kill_twice(folder, window, moments, kept):
    server, port = serving(folder, "--connections", str(len(moments) + 1), "--contacts", "server.contacts")
    held = 0
    for moment in moments:
        killed_run(folder, port, window, moment, kept)
        now = held_in(folder, kept)
        must(now >= held, "features are lost", held, now)
        held = now
    status, output, errors = ended(begun_run(folder, port, window, kept))
    must(status == 0 and output.startswith("STATE Done\n"), "the last run", status, output[:100], errors)
    ended_server(server, port)
    if kept == RECORD:
        must_be_recorded(folder)
        must_be_noted(folder, port)
    must_have_runs(folder, FEATURES, "--features", "part.features", "--contacts", "server.contacts")
    return held


def kill_server(folder, window, moment):
    """A server that is killed after that many seconds, while a client measures: how many acts the client has recorded."""
    server, port = serving(folder, "--contacts", "server.contacts")
    client = begun_run(folder, port, window, RECORD)
    time.sleep(moment)
    killed(server)
    ended(client)
    record = read(folder)
    must_be_prefix(folder)
    (folder / "part.features").write_text(record.features_text())
    must_have_runs(folder, len(record.features), "--features", "part.features", "--contacts", "server.contacts")
    return len(record.told)


def kill_servers(window, span, moments):
    """Servers that are killed at moments of a run: how many acts their clients have recorded."""
    told = 0
    for at in range(moments):
        with part() as folder:
            told += kill_server(folder, window, span * (at + 1) / (moments + 1))
    must(told > 0, "no client recorded an act")
    return told


def kill_all(chance, window, kept, moments):
    """How many features were held after kills at moments of the time that an undisturbed run takes, and how many acts clients have recorded whose
    server was killed."""
    must(PROGRAM.exists(), "no executable")
    begin = time.monotonic()
    with part() as folder:
        kill_twice(folder, window, [], kept)
    span, held = time.monotonic() - begin, 0
    for at in range(moments):
        with part() as folder:
            held += kill_twice(folder, window, [span * (at + 1) / (moments + 1), span * chance.below(1000) / 1000], kept)
    return held, kill_servers(window, span, moments) if kept == RECORD else 0


def check_killed(moments=MOMENTS):
    """Each window, with either file."""
    chance, cases = Fixed(7), [(window, kept) for kept in (RECORD, LEDGER) for window in WINDOWS]
    found = [tried(f"killed, window {window}, {kept[0]}", kill_all, chance, window, kept, moments) for window, kept in cases]
    held, told = map(sum, zip((0, 0), *(it for it in found if it)))
    more = f" windows and files, {moments} moments each, {held} features held after kills, {told} acts reported by killed servers"
    return counted("killed runs", found.count(None), len(cases), more)


if __name__ == "__main__":
    sys.exit(1 if check_killed(int(sys.argv[1]) if sys.argv[1:] else MOMENTS)[1] else 0)
