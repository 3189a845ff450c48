"""What a witness keeps of ends that send too much, and how long it takes over long recordings.

- Bytes that follow one that no line can hold, 10,000 lines and more that are never answered, and a line without an end that is shown or logged:
  `dme watch` sends on each byte, its memory is at the end what it was after a quarter of them, and the next connection is witnessed as any other.
- `dme ledger` and `dme judge` over four times the lines take about four times as long.

`run` calls this; by itself: tests/floods.py [MEGABYTES], which sends that many in each flood (200 by default).
"""

import functools
import pathlib
import socket
import sys
import threading
import time

from common import SECONDS, TOLD, Wrong, called, counted, ended, must, processor_time, room, tried
from watched import watch

MEGABYTES = 200
MOST_KEPT = 32 << 20
# How much more memory the relay may have had after a whole flood than after the first quarter of it.
MOST_GROWN = 1 << 20
PIECE = 1 << 16


def unknown(count):
    """Lines of unknown commands, that many bytes or a few more, and how many lines."""
    number = count // len("00001 Foo()\r\n") + 1
    return b"".join(b"%05d Foo()\r\n" % (at % 99_999 + 1) for at in range(number))


# What the client sends, how the relay is called, and what it reports of the connection.
FLOODS = {
    "after_a_fault": (lambda count: b"00001 Home()\n" + b"x" * count, (), ""),
    "never_answered": (unknown, (), "1 BROKEN TooMany 10001\n"),
    "endless_and_shown": (lambda count: b"x" * count, ("--trace",), ""),
    "endless_and_logged": (lambda count: b"x" * count, ("--log", "log"), ""),
}


def peak(process):
    """The most memory that it has had, in bytes."""
    for line in pathlib.Path(f"/proc/{process.pid}/status").read_text().splitlines():
        if line.startswith("VmHWM:"):
            return int(line.split()[1]) << 10
    raise Wrong("no peak of memory")


class Sink:
    """A server that reads a connection to its end, and then a second, whose first line it answers."""

    def __init__(self, count):
        self.listener = socket.create_server(("127.0.0.1", 0))
        self.port = self.listener.getsockname()[1]
        self.count, self.bytes = count, 0
        self.may_close = threading.Event()
        threading.Thread(target=self.take, daemon=True).start()

    def take(self):
        with self.listener.accept()[0] as end:
            while self.bytes < self.count and (piece := end.recv(PIECE)):
                self.bytes += len(piece)
            self.may_close.wait(SECONDS)
        with self.listener.accept()[0] as end:
            line = b""
            while not line.endswith(b"\r\n"):
                line += end.recv(PIECE)
            end.sendall(b"00001 &\r\n00001 %\r\n")
            end.recv(PIECE)


def send(client, text, sink):
    """Sends a text, and waits until the server has it."""
    until, late = sink.bytes + len(text), time.monotonic() + SECONDS
    for at in range(0, len(text), PIECE):
        client.sendall(text[at : at + PIECE])
    while sink.bytes < until:
        must(time.monotonic() < late, "not sent on", sink.bytes, until)
        time.sleep(0.01)


def flood(folder, name, count):
    make, words, reported = FLOODS[name]
    text = make(count)
    sink = Sink(len(text))
    # A connection without a line does not count.
    relay, port = watch(folder, sink.port, "--connections", "2" if b"\n" in text else "1", *words)
    # What the relay shows is read by none while it runs, so that it must fit into a pipe.
    with socket.create_connection(("127.0.0.1", port)) as client:
        send(client, text[: len(text) // 4], sink)
        first = peak(relay)
        send(client, text[len(text) // 4 :], sink)
        kept = peak(relay)
        sink.may_close.set()
    with socket.create_connection(("127.0.0.1", port)) as client:
        client.sendall(b"00001 Home()\r\n")
        answer = b""
        while len(answer) < 18 and (piece := client.recv(PIECE)):
            answer += piece
    must(answer == b"00001 &\r\n00001 %\r\n", name, "the next connection is not relayed", answer)
    status, out, error = ended(relay)
    must((status, out) == (0, ""), name, status, out, error[:200])
    must((folder / "told").read_text() == TOLD + reported + "2 HOMED\n", name, (folder / "told").read_text()[:200])
    must(kept < MOST_KEPT, name, kept >> 10, "KiB")
    must(kept < first + MOST_GROWN, name, "has grown from", first >> 10, "to", kept >> 10, "KiB")
    return f"{kept >> 10} KiB"


# ---- long recordings


def recordings(folder, touches, is_ordered):
    """The recordings of a session with that many touches, of four lines each, some with an error that stops nothing; and their order, if that is known."""
    up, down = ["00001 StartSession()\r\n"], ["00001 &\r\n00001 %\r\n"]
    for at in range(touches):
        tag = "%05d" % (at % 99_998 + 2)
        up.append(f"{tag} PtMeas(X({at % 100}.000), Y(0.000), Z(0.000))\r\n")
        down.append(f"{tag} &\r\n" + (f"{tag} # X(0.000), Y(0.000), Z(0.000)\r\n" if at % 999 else f'{tag} ! Error(1, 1000, "", "")\r\n') + f"{tag} %\r\n")
    (folder / "long.up").write_text("".join(up))
    (folder / "long.down").write_text("".join(down))
    if is_ordered:
        (folder / "long.order").write_text("DME-ORDER 1\n" + "".join(f"> {len(sent)}\n< {len(heard)}\n" for sent, heard in zip(up, down)))


def read(folder, order):
    status, text, error = called(folder, order, "--up", "long.up", "--down", "long.down")
    must(status == 0, order, text[:200], error[:200])


def linear(folder, order, touches, is_ordered):
    """Four times the lines take at most six times as long, and a tenth of a second more."""
    recordings(folder, touches, is_ordered)
    first = processor_time(read, folder, order)
    recordings(folder, 4 * touches, is_ordered)
    second = processor_time(read, folder, order)
    must(second < 6 * first + 0.1, order, first, second)
    return f"{16 * touches} lines in {second:.2f} s"


def rows(megabytes):
    """Each row by its name."""
    found = {name: functools.partial(flood, name=name, count=megabytes << 20) for name in FLOODS}
    for order, is_ordered in (("ledger", False), ("judge", False), ("judge", True)):
        name = f"long_{order}_in_order" if is_ordered else f"long_{order}"
        found[name] = functools.partial(linear, order=order, touches=12_500, is_ordered=is_ordered)
    return found


def check_floods(megabytes=MEGABYTES, is_told=False):
    wrong, found = 0, rows(megabytes)
    for name, row in found.items():
        with room() as folder:
            told = tried(f"floods, {name}", row, folder)
        wrong += told is None
        if is_told and told is not None:
            print(f"floods, {name}: {told}")
    return counted("floods and long recordings", wrong, len(found))


if __name__ == "__main__":
    sys.exit(1 if check_floods(int(sys.argv[1]) if sys.argv[1:] else MEGABYTES, True)[1] else 0)
