"""Records that are torn, edited, held by another run, or no plain files.

- A record that is cut at each byte is read as its whole lines: what it completes is counted here, and a text that is no whole head completes
  nothing.
- A record in which a field is changed to each of a few other values is refused by its line (J1) or by its feature (J3), or is another whole
  record: then each of its features still has the points of its own contacts, as this script reads them. It is never changed. What stands above
  a line that J1 refuses is a record.
- A record that another run holds, that may only be read, that is a folder, a pipe or a device, or that cannot be made is refused before a
  connection is made; so is a file of features or contacts that another run holds, also while that one waits for its server.
- Two files of a call that are one, by a link or otherwise, are refused. A link for a record or for features is refused. FILE.new is made anew: a plain file in its place is removed, and a link is not written
  through. FILE keeps its mode. A record that is removed during the run is whole at the end.
- What completes a feature is forced to the device before anything else is written or sent, in the record and in the features file, and only
  then is the feature reported, as `strace` sees it. The name of each file that a run makes is forced there directly after its text.

`run` calls this; by itself: tests/records.py
"""

import os
import pathlib
import re
import shutil
import socket
import sys
import time

from common import EXAMPLES, PROGRAM, begun, called, counted, dme, ended, holds, killed, must, room, run_words, serving
from listening import free_port

RECORD = (EXAMPLES / "break_inside_a_feature.record").read_bytes()
# That of a part, which a run continues.
PART = "0042/7"
OF_PART = RECORD.replace(b"DME-RECORD 1\n", f"DME-RECORD 1\nPART {PART}\n".encode(), 1)
FEATURES = (EXAMPLES / "break_inside_a_feature.features").read_bytes()
GIVEN = {name: (EXAMPLES / name).read_text() for name in ("circle.dmis", "machine.setup")}
SECONDS = 20
OTHERS = ("", "2", "X", "M", "1.000", "-1.000000", "4000000001", "END")
MISSING = "dme: 0 of 1 feature: C is missing\n"
STOPPED = "dme: stopped: 0 of 1 feature complete. Remove the cause, then make the same call.\n"


def printed(folder, text, form):
    """How `export` of a record ends."""
    (folder / "part.record").write_bytes(text)
    run = called(folder, "export", "--as", form, "--setup", "machine.setup", "--record", "part.record", "circle.dmis")
    must((folder / "part.record").read_bytes() == text, "record was changed", text)
    return run


def must_be_refused(run, name, why):
    """A run that ends before it makes a connection."""
    must(run == (1, "", f"dme: cannot write {name}{why}\n"), name, why, run)


def points_of(text):
    """The label and the points of each feature, in the order of their COMPLETED lines, as the whole lines of a record have them."""
    lines = text.split("\n")[:-1]
    counts = [int(it.split(" ")[2]) for it in lines if it.startswith("FEATURE ")]
    contacts, features = [], []
    for line in lines[lines.index("END") + 1:] if "END" in lines else []:
        connection, word, *rest = line.split(" ", 2)
        if word == "CONTACT":
            contacts.append(" ".join(line.split(" ")[-3:]))
        elif word == "COMPLETED":
            features.append((rest[0], contacts[-counts[len(features)]:]))
    return features


def features_text(features):
    """The label and the points of each feature of the text of a features file."""
    found, points = [], []
    for line in features.split("\n")[1:-1]:
        if line.startswith("FEATURE "):
            label, points = line.split(" ")[1], []
        elif line == "END":
            found.append((label, points))
        else:
            points.append(line)
    return found


def check_torn(folder):
    for cut in range(len(RECORD) + 1):
        text = RECORD[:cut]
        status, features, error = printed(folder, text, "features")
        held = points_of(text.decode())
        must((status, error) == ((0, "") if held else (3, MISSING)), f"cut at byte {cut}", error)
        must(features_text(features) == held, f"cut at byte {cut}", features)


def edited():
    """Each record in which one field is another."""
    lines = RECORD.decode().split("\n")[:-1]
    for at, line in enumerate(lines):
        fields = line.split(" ")
        for place, field in enumerate(fields):
            for other in OTHERS:
                if other != field:
                    changed = [*fields[:place], other, *fields[place + 1:]]
                    yield at + 1, "\n".join([*lines[:at], " ".join(changed), *lines[at + 1:]]) + "\n"


def must_be_good_above(folder, text, said):
    """As its explanation advises: the lines above a damaged one are a record."""
    found = re.match(r"dme: J1 Damaged at line (\d+)", said)
    if found:
        above = "".join(text.splitlines(keepends=True)[: int(found[1]) - 1])
        left = printed(folder, above.encode(), "features")[2]
        must("J1" not in left, "damaged above the line that is refused", said, left)


def check_edited(folder):
    whole = 0
    for number, text in edited():
        status, features, error = printed(folder, text.encode(), "features")
        if status != 0:
            said = error.split("\n")[0]
            known = said.startswith("dme: J1 Damaged at line ") or said.startswith("dme: J3 OtherProgram (feature ")
            must(known and features == "", f"line {number} edited", said)
            must_be_good_above(folder, text, said)
            continue
        whole += 1
        must(features_text(features) == points_of(text), f"line {number} edited", features)
        status, verdict, _ = called(folder, "audit", "--setup", "machine.setup", "--record", "part.record", "circle.dmis")
        must(verdict.startswith("RUNS") and status == 0, f"line {number} edited", verdict)
    must(whole > 0, "no edited record is a whole one")


def words_of(port, option="--record", name="part.record", *more):
    """A run with a file of this option."""
    part = ["--part", PART] if option == "--record" else []
    return run_words(port, option, name, *part, *more, program="circle.dmis")


def check_no_files(folder):
    port = free_port()
    os.mkfifo(folder / "pipe")
    (folder / "nothing").mkdir()
    for name, why in (("pipe", ""), ("nothing", ": is a folder"), ("/dev/null", ""), ("missing/part.record", "")):
        must_be_refused(called(folder, *words_of(port, "--record", name)), name, why)


def check_read_only(folder):
    """Root may write each file, so another user asks then."""
    (folder / "part.record").write_bytes(OF_PART)
    (folder / "part.record").chmod(0o444)
    folder.chmod(0o755)
    program = shutil.copy(PROGRAM, folder / "dme")
    other = {"user": 65534} if os.geteuid() == 0 else {}
    must_be_refused(ended(begun(folder, program, *words_of(free_port()), **other)), "part.record", ": no permission")
    must((folder / "part.record").read_bytes() == OF_PART, "read-only record was changed")


def check_held(folder):
    """A run whose server says nothing, or that waits for one, holds its files: another one is refused before it makes a connection."""
    for option, name, text in (("--record", "part.record", OF_PART[:400]), ("--features", "part.features", FEATURES), ("--contacts", "new", None)):
        if text is not None:
            (folder / name).write_bytes(text)
        with socket.create_server(("127.0.0.1", 0)) as silent:
            first = dme(folder, *words_of(silent.getsockname()[1], option, name))
            try:
                silent.settimeout(SECONDS)
                connection, _ = silent.accept()
                connection.recv(1)
                held = (folder / name).read_bytes()
                must_be_refused(called(folder, *words_of(free_port(), option, name)), name, ": locked by another run")
                must((folder / name).read_bytes() == held, f"held {name} was changed")
                connection.close()
            finally:
                killed(first)


def check_waiting(folder):
    """A run that waits for its server holds its features file, which stays as it was; one that was made is removed."""
    for before in (FEATURES, None):
        (folder / "part.features").unlink(missing_ok=True)
        if before is not None:
            (folder / "part.features").write_bytes(before)
        first = dme(folder, *words_of(free_port(), "--features", "part.features", "--wait", "1"))
        end = time.monotonic() + SECONDS
        while not (folder / "part.features").exists() and time.monotonic() < end:
            time.sleep(0.01)
        time.sleep(0.3)
        must_be_refused(called(folder, *words_of(free_port(), "--features", "part.features")), "part.features", ": locked by another run")
        ended(first)
        left = (folder / "part.features").read_bytes() if (folder / "part.features").exists() else None
        must(left == before, "features of a run that waited in vain", left)


def check_link(folder):
    """A link is not written through, also one that leads nowhere."""
    (folder / "other").write_bytes(OF_PART[:400])
    for option in ("--record", "--features"):
        for target in ("other", "nowhere"):
            (folder / "link").symlink_to(target)
            must_be_refused(called(folder, *words_of(free_port(), option, "link")), "link", ": is a link")
            must((folder / "link").is_symlink() and not (folder / "nowhere").exists(), option, target)
            (folder / "link").unlink()
    must((folder / "other").read_bytes() == OF_PART[:400], "the file of a link was changed")


def check_names(folder):
    """Two names of one file, by a link or a second name, are refused before anything is opened."""
    (folder / "part.record").write_bytes(OF_PART)
    (folder / "link").symlink_to("part.record")
    os.link(folder / "part.record", folder / "other")
    for name in ("link", "other", "../" + folder.name + "/part.record"):
        run = called(folder, *words_of(free_port(), "--record", "part.record", "--log", name))
        shown = f"error: '--record' and '--log' name one file, '{name}'\n\nFor more information, try '--help'.\n"
        must(run == (2, "", shown), name, run)
        must((folder / "part.record").read_bytes() == OF_PART, name, "the record was changed")


def check_next(folder):
    """FILE.new is made anew, and only if nothing but a plain file is in its place; FILE keeps its mode."""
    (folder / "other").write_text("other")
    for option in ("--features", "--contacts"):
        (folder / "part").write_text("")
        (folder / "part").chmod(0o660)
        (folder / "part.new").symlink_to("other")
        server, port = serving(folder)
        must_be_refused(called(folder, *words_of(port, option, "part")), "part", f": its .new is no plain file\n{STOPPED.rstrip()}")
        must((folder / "other").read_text() == "other" and (folder / "part").read_text() == "", option, "a link is written")
        killed(server)
        (folder / "part.new").unlink()
        (folder / "part.new").write_text("what an earlier run has left there, and is longer than what comes in its place" * 9)
        (folder / "part.new").chmod(0o600)
        server, port = serving(folder)
        run = called(folder, *words_of(port, option, "part"))
        ended(server)
        must(run[0] == 0 and not (folder / "part.new").exists(), option, run)
        must((folder / "part").read_text().startswith("DME-"), option, "is not written")
        must((folder / "part").stat().st_mode & 0o777 == 0o660, option, "has another mode")


def check_removed(folder):
    """A server that waits before its last answer, while the record is removed."""
    with socket.create_server(("127.0.0.1", 0)) as listener:
        run = dme(folder, *words_of(listener.getsockname()[1]))
        listener.settimeout(SECONDS)
        connection, _ = listener.accept()
        with connection, connection.makefile("rb") as lines:
            for line in lines:
                tag, command = line.decode().rstrip().split(" ", 1)
                if command.startswith("EndSession"):
                    (folder / "part.record").unlink()
                data = {"IsHomed": f"{tag} # IsHomed(1)\r\n", "PtMeas": f"{tag} # X(1.000), Y(0.000), Z(0.000)\r\n"}
                connection.sendall(f"{tag} &\r\n{data.get(command.split('(')[0], '')}{tag} %\r\n".encode())
        status, _, error = ended(run)
    must(status == 0, "removed record", error)
    must(len(points_of((folder / "part.record").read_text())) == 1, "removed record")


def calls_of(folder, *more):
    """Which calls a run makes that write, force or send, in order, with the file and what is written."""
    server, port = serving(folder)
    named = ["strace", "-f", "-y", "-s", "100000", "-o", "calls", "-e", "trace=write,fdatasync,fsync,sendto"]
    status, _, error = ended(begun(folder, *named, str(PROGRAM), *words_of(port, "--record", "part.record", *more)))
    must(status == 0, "run under strace", error)
    ended(server)
    return re.findall(r"(?m)^\d+ +(\w+)\(\d+<([^>]*)>(.*)$", (folder / "calls").read_text())


def check_forced(folder):
    calls = calls_of(folder, "--features", "part.features", "--progress")
    shown = [n for n, (call, _, text) in enumerate(calls) if call == "write" and text.startswith(', "feature 1 of 1: C')]
    must(len(shown) == 1, "the feature is not reported once", str(calls))
    for name, told in (("part.record", "COMPLETED C"), ("part.features", "FEATURE C")):
        at = [n for n, (call, file, text) in enumerate(calls) if call == "write" and file.endswith(f"/{name}") and told in text]
        must(at, f"{name}: no feature is appended", str(calls))
        for n in at:
            after = calls[n + 1:n + 2]
            forced = [file for call, file, _ in after if call == "fdatasync" and file.endswith(f"/{name}")]
            must(forced, f"{name}: a feature is not forced to the device", str(after))
        must(at[0] + 1 < shown[0], f"{name}: the feature is reported before it is forced to the device", str(calls))


def check_settled(folder):
    """Each file that a run makes is forced to the device, and directly after it its name; at the end features and contacts are made again."""
    calls = calls_of(folder, "--features", "part.features", "--contacts", "part.contacts")
    forced = [(n, pathlib.Path(file).name) for n, (call, file, _) in enumerate(calls) if call == "fsync" and not pathlib.Path(file).is_dir()]
    made = ["part.features.new", "part.contacts.new"]
    must([name for _, name in forced] == ["part.record", *made, *made], "other files are forced to the device", str(forced))
    for n, name in forced:
        must(calls[n + 1][:2] == ("fsync", str(folder.resolve())), name, "its name is not forced to the device", str(calls[n + 1]))


CHECKS = (check_torn, check_edited, check_no_files, check_read_only, check_held, check_waiting, check_link, check_names, check_next, check_removed, check_forced,
          check_settled)


def check_records():
    begin, wrong = time.monotonic(), 0
    for check in CHECKS:
        with room(GIVEN) as folder:
            wrong += not holds(check.__name__, check, folder)
    return counted("records that are damaged or held", wrong, len(CHECKS), f"; {time.monotonic() - begin:.0f} s")


if __name__ == "__main__":
    sys.exit(1 if check_records()[1] else 0)
