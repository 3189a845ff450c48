"""Runs against a server of another maker that breaks off and lies, begun again from their record until they are Done.

A program of 40 features is run with windows of 1, 4 and 16 against a server that is written here. On each connection it answers as the
interface says up to a moment of a fixed sequence, with points that have nothing to do with the targets, and that it is homed although it is
not. Then it cuts a reply off at any byte and closes or resets the connection, answers with an error, gives no point or two, completes a
command twice, answers one that was never sent, or sends a line that is no response. Some runs are killed. After each run:

- no feature whose COMPLETED line was whole is lost;
- the contacts that the record has of a connection are those that were answered on one, in order: each contact's target was sent, and its point was the answer;
- the errors that it has of a connection are the first of those that were answered on one, in order, with their tags and texts.

In the end the record has the program's features, each with the points of its last contacts, and its audit answers RUNS.

`run` calls this with a few sessions; by itself: tests/lying.py [SESSIONS], which begins that many for each window.
"""

import re
import socket
import sys
import threading

from common import PROGRAM, SECONDS, Wrong, counted, lost_on_close, must, must_have_runs, tried
from hostile import Fixed
from killed import FEATURES, RECORD, WINDOWS, by_connection, killed_run, part, read

SESSIONS = 1
RUNS = 400
LIES = ("cut", "cut", "reset", "error", "no point", "two points", "twice", "stranger", "garbage")
NUMBER = r"(-?\d+\.\d{3})"
TOUCH = re.compile(rf"PtMeas\(X\({NUMBER}\), Y\({NUMBER}\), Z\({NUMBER}\)")


class Liar(threading.Thread):
    """A server that answers honestly for a while on each connection."""

    def __init__(self, chance):
        super().__init__(daemon=True)
        self.chance = chance
        self.listener = socket.create_server(("127.0.0.1", 0))
        self.port = self.listener.getsockname()[1]
        self.answered = []  # for each connection, the contacts that it answered: target and point
        self.refused = []  # for each connection, the errors that it answered, as a record has them
        self.lies = 0

    def run(self):
        while True:
            try:
                stream, _ = self.listener.accept()
            except OSError:
                return
            self.answered.append([])
            self.refused.append([])
            left = self.chance.below(80)
            try:
                self.serve(stream, left)
            except OSError:
                pass
            stream.close()

    def close(self):
        self.listener.shutdown(socket.SHUT_RDWR)
        self.listener.close()

    def serve(self, stream, left):
        stream.setsockopt(socket.IPPROTO_TCP, socket.TCP_NODELAY, 1)
        waiting, in_error = b"", False
        while True:
            came = stream.recv(4096)
            if not came:
                return
            *lines, waiting = (waiting + came).split(b"\r\n")
            for line in lines:
                tag, _, command = line.decode().partition(" ")
                if left == 0:
                    self.lies += 1
                    if not self.lie(stream, self.chance.one_of(LIES), tag, command):
                        return
                    in_error, left = True, 1_000_000
                    continue
                left -= 1
                in_error = self.answer(stream, tag, command, in_error)

    def point(self):
        """A point, which no probe has touched."""
        return [f"{self.chance.below(200_000) / 1000 - 100:.3f}" for _ in range(3)]

    def answer(self, stream, tag, command, in_error):
        """Answers a command as the interface says. Whether the server is in its error state."""
        if in_error and tag[0] != "E" and not command.startswith("ClearAllErrors"):
            self.refused[-1].append(f'{tag} Error(3, 9008, "", "Error state")')
            stream.sendall(f'{tag} &\r\n{tag} ! Error(3, 9008, "", "Error state")\r\n{tag} %\r\n'.encode())
            return True
        data = ""
        touch = TOUCH.match(command)
        if touch:
            point = self.point()
            data = f"{tag} # X({point[0]}), Y({point[1]}), Z({point[2]})\r\n"
            self.answered[-1].append((touch.groups(), tuple(point)))
        elif command.startswith("IsHomed"):
            data = f"{tag} # IsHomed(1)\r\n"
        stream.sendall(f"{tag} &\r\n{data}{tag} %\r\n".encode())
        return tag[0] == "E"

    def lie(self, stream, lie, tag, command):
        """A reply that is not as the interface says. Whether the connection stands."""
        if lie == "error":
            self.refused[-1].append(f'{tag} Error(3, 1009, "{command[:6]}", "Air: \\x07 probe collision")')
            stream.sendall(f'{tag} &\r\n{tag} ! Error(3, 1009, "{command[:6]}", "Air: \x07 probe collision")\r\n{tag} %\r\n'.encode())
            return True
        data = f"{tag} # X(1.000), Y(2.000), Z(3.000)\r\n"
        text = {
            "cut": f"{tag} &\r\n{data}",
            "reset": f"{tag} &\r\n",
            "no point": f"{tag} &\r\n{tag} %\r\n" if "PtMeas" in command else f"{tag} &\r\n{data}{tag} %\r\n",
            "two points": f"{tag} &\r\n{data}{data}{tag} %\r\n",
            "twice": f"{tag} &\r\n{tag} %\r\n{tag} %\r\n" if "PtMeas" not in command else f"{tag} &\r\n{tag} &\r\n",
            "stranger": "09998 %\r\n",
            "garbage": f"{tag} ? {command}\r\n",
        }[lie].encode()
        if lie == "cut":
            text = text[: self.chance.below(len(text))]
        if lie == "reset":
            lost_on_close(stream)
        else:
            stream.sendall(text)
        return False


def must_be_answered(told, answered, what):
    """What the record has of each connection is the first of what was answered on one of the server's connections."""
    for number, mine in by_connection(told).items():
        must(any(given[: len(mine)] == mine for given in answered), what, "of connection", number, "were not answered", mine[:3])


def contacts_of(record):
    """The target and the point of each contact, with its connection."""
    fields = [(number, rest.split(" ")) for number, word, rest in record.told if word == "CONTACT"]
    return [(number, (tuple(it[:3]), tuple(it[-3:]))) for number, it in fields]


def run_once(folder, port, window, moment):
    """A run, which is killed after that many seconds if it takes longer. Whether it is Done."""
    run = killed_run(folder, port, window, moment, RECORD)
    if run is None:
        return False
    status, output, errors = run
    must(status in (0, 1, 3), "status", status, errors)
    return status == 0 and output.startswith("STATE Done\n")


def session(chance, folder, window):
    """Runs until one is Done: how many there were, and how many lies."""
    liar = Liar(chance)
    liar.start()
    held = 0
    try:
        for count in range(1, RUNS + 1):
            moment = chance.below(1000) / 10_000 if chance.below(4) == 0 else SECONDS
            is_done = run_once(folder, liar.port, window, moment)
            record = read(folder)
            must(len(record.features) >= held, "features are lost", held, len(record.features))
            held = len(record.features)
            must_be_answered(contacts_of(record), list(liar.answered), "contacts")
            must_be_answered(record.refused, list(liar.refused), "errors")
            if is_done:
                return count, liar.lies, len(record.refused)
    finally:
        liar.close()
    raise Wrong(f"not Done after {RUNS} runs")


def must_be_sound(folder):
    """The record holds the program's features, and its audit answers RUNS."""
    record = read(folder)
    must([it[0] for it in record.features] == [f"F{it}" for it in range(FEATURES)], "features", len(record.features))
    must_have_runs(folder, FEATURES, "--record", "part.record")


def sessions_of(chance, window, count):
    """How many runs, lies and errors there were in that many sessions."""
    must(PROGRAM.exists(), "no executable")
    found = []
    for _ in range(count):
        with part() as folder:
            found.append(session(chance, folder, window))
            must_be_sound(folder)
    return map(sum, zip(*found))


def check_lying(sessions=SESSIONS):
    """Each window, in each session."""
    chance = Fixed(11)
    found = [tried(f"lying server, window {it}", sessions_of, chance, it, sessions) for it in WINDOWS]
    wrong = found.count(None)
    runs, lies, refused = map(sum, zip((0, 0, 0), *(it for it in found if it)))
    if PROGRAM.exists() and not refused:
        print("lying server: no error was kept")
        wrong = max(wrong, 1)
    more = f" windows, {sessions} sessions each, {runs} runs, {lies} lies, {refused} errors kept"
    return counted("lying server", wrong, len(WINDOWS), more)


if __name__ == "__main__":
    sys.exit(1 if check_lying(int(sys.argv[1]) if sys.argv[1:] else SESSIONS)[1] else 0)
