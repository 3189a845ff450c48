"""Connections that are relayed by `dme watch`, and what it writes of them.

- A client and a server of ours, with windows of 1, 4 and 16: the report is that of a run without a relay, the told file is the server's contacts
  but for its first line, and `dme ledger` over the recorded bytes prints it. `dme judge` finds no line that breaks a rule.
- A client that is written here, and leaves after any of its lines, by an end or a reset, with or without the replies to it: what the told
  file has is a prefix of the server's contacts; each act of a command whose end the client has read is in it.
- A client that calls the server past the relay, between two that do not: the told file has what was reported to the two, and no more.
- Both ends written here, with bytes of a fixed sequence in pieces: each end gets the bytes of the other, as recorded; after a reset a prefix.
- Calls that are refused while a relay runs leave its recordings as they are; so does one that names a folder that holds some.
- A told file that is there already stays, as told.old.
- A told file that cannot be written is refused before the relay listens; one that cannot grow is reported at once, stops nothing, and the
  status is 1. Of a server that does not listen and of two silent ends it says so.

`run` calls this; by itself: tests/watched.py [BREAKS], which leaves at every BREAKS-th line (1 by default).
"""

import socket
import sys
import threading

from common import CONTACTS, SECONDS, TOLD, called, ended, listening, lost_on_close, must, run_words, serving, whole
from hostile import Fixed
from killed import WINDOWS, part
from listening import free_port

BREAKS = 9
ACTS = ("IsHomed", "Home", "GoTo", "PtMeas", "ChangeTool", "SetCoordSystem")


def watch(folder, server_port, *more, limit=None):
    """A relay of one connection to a port, if no more are asked for, and the port that it listens on."""
    count = () if set(more) & {"--connections", "--endless"} else ("--connections", "1")
    words = ("watch", "--listen", "PORT", "--host", "127.0.0.1", "--port", str(server_port), "--told", "told")
    return listening(folder, *words, *count, *more, limit=limit)


def serve(folder, *more):
    return serving(folder, "--contacts", "contacts", *more)


def acts_of(folder, name, head):
    """The lines of a file after its first."""
    text = (folder / name).read_text()
    must(text.startswith(head), name, text[:40])
    return text[len(head):]


def kept_bytes(folder):
    return [(folder / name).read_bytes() for name in ("1.up", "1.down")]


def ledger(folder):
    return called(folder, "ledger", "--up", "1.up", "--down", "1.down")[1]


def must_not_be_blamed(folder, number=1):
    """No line of either end of a connection breaks a rule."""
    status, out, error = called(folder, "judge", "--up", f"{number}.up", "--down", f"{number}.down")
    must((status, out.partition("\n")[0], error) == (0, "dme: no line breaks the rules", ""), "one of our ends is blamed", out, error)


def cleared(folder):
    """The folder without what an earlier connection has left in it."""
    for name in ("told", "contacts", "1.up", "1.down", "1.order"):
        (folder / name).unlink(missing_ok=True)
    return folder


# ---- both ends ours


def run_through(folder, window):
    server, server_port = serve(folder)
    relay, port = watch(folder, server_port, "--record-bytes", ".")
    status, report, error = called(folder, *run_words(port, "--window", str(window)))
    must(status == 0, "run", status, error)
    must(ended(relay) == (0, "", ""), "relay")
    must(ended(server)[0] == 0, "server")
    told = acts_of(folder, "told", TOLD)
    must(told == acts_of(folder, "contacts", CONTACTS), "the told file is not the contacts")
    must(told.count(" CONTACT ") == 120, "contacts", told.count(" CONTACT "))
    must(ledger(folder) == TOLD + told, "the ledger of the bytes is another")
    must_not_be_blamed(folder)
    again, again_port = serve(folder)
    must(called(folder, *run_words(again_port, "--window", str(window)))[1] == report, "the report is another")
    ended(again)


# ---- a client past the relay


def bypass(folder):
    server, server_port = serve(folder, "--connections", "3")
    relay, port = watch(folder, server_port, "--connections", "2")
    for it in (port, server_port, port):
        must(called(folder, *run_words(it))[0] == 0, "run")
    must(ended(relay) == (0, "", ""), "relay")
    must(ended(server)[0] == 0, "server")
    made = acts_of(folder, "contacts", CONTACTS).splitlines(keepends=True)
    own = [it for it in made if it.startswith("1 ")] + ["2" + it[1:] for it in made if it.startswith("3 ")]
    must(len(own) < len(made) and acts_of(folder, "told", TOLD) == "".join(own), "the told file is not what was reported to both")


# ---- a client that leaves


def leave(stream, how):
    if how == "reset":
        lost_on_close(stream)
    stream.close()


def send_some(port, lines, hears_last):
    """Sends lines, and reads the replies to each but perhaps the last: the connection, and how many acts were reported on it."""
    stream = socket.create_connection(("127.0.0.1", port), SECONDS)
    stream.setsockopt(socket.IPPROTO_TCP, socket.TCP_NODELAY, 1)
    stream.settimeout(SECONDS)
    acts, came = 0, b""
    for at, line in enumerate(lines):
        tag, _, command = line.partition(" ")
        stream.sendall(line.encode() + b"\r\n")
        if at + 1 == len(lines) and not hears_last:
            break
        while f"{tag} %\r\n".encode() not in came:
            more = stream.recv(4096)
            must(more, "the relay left", line)
            came += more
        acts += command.startswith(ACTS)
    return stream, acts


def leave_after(folder, lines, how, hears_last):
    server, server_port = serve(cleared(folder))
    relay, port = watch(folder, server_port, "--record-bytes", ".")
    stream, acts = send_some(port, lines, hears_last)
    told_then = acts_of(folder, "told", TOLD)
    must(told_then.count("\n") >= acts, "reported before it was written", acts, told_then)
    leave(stream, how)
    status, out, error = ended(relay)
    must(out == "" and (status == 0 or how == "reset" or not hears_last), "relay", status, error)
    ended(server)
    told, made = (acts_of(folder, *it) for it in (("told", TOLD), ("contacts", CONTACTS)))
    must(made.startswith(told) and told.startswith(told_then), "no prefix", told, made)
    must(ledger(folder) == TOLD + told, "the ledger of the bytes is another")
    must_not_be_blamed(folder)
    if hears_last and how == "end":
        must(told == made, "less than the contacts", told, made)


def leave_everywhere(folder, step):
    lines = called(folder, "check", "--setup", "machine.setup", "part.dmis")[1].splitlines()
    count = 0
    for how in ("end", "reset"):
        for hears_last in (True, False):
            # A reset may take the first line back, and then the connection does not count.
            for at in range(max(1 + count % step, 1 if hears_last else 2), len(lines) + 1, step):
                leave_after(folder, lines[:at], how, hears_last)
                count += 1
    return count


# ---- both ends of another maker


def some_bytes(fixed):
    """Bytes of lines and others."""
    words = [b"00001 GoTo(X(1))\r\n", b"00001 &\r\n", b"00001 %\r\n", b"\r\n", b"\n", b"\x00\xff", b"E0000 ! Error(1)\r\n", b"x" * 70_000]
    return b"".join(fixed.one_of(words[:6] * 3 + words[6:]) for _ in range(fixed.below(60)))


class End(threading.Thread):
    """An end that sends bytes in pieces, ends, and receives until its end."""

    def __init__(self, stream, given, fixed, resets):
        super().__init__(daemon=True)
        self.stream, self.given, self.sizes, self.resets = stream, given, [1 + fixed.below(5000) for _ in range(200)], resets
        self.heard = b""

    def send(self):
        at = 0
        for size in self.sizes:
            self.stream.sendall(self.given[at:at + size])
            at += size
        self.stream.sendall(self.given[at:])
        if not self.resets:
            self.stream.shutdown(socket.SHUT_WR)

    def run(self):
        self.stream.settimeout(SECONDS)
        sender = threading.Thread(target=self.try_to, args=(self.send,), daemon=True)
        sender.start()
        if self.resets:
            sender.join(SECONDS)
            leave(self.stream, "reset")
            return
        self.try_to(self.hear)
        sender.join(SECONDS)
        self.stream.close()

    def try_to(self, act):
        try:
            act()
        except OSError:
            pass

    def hear(self):
        while True:
            came = self.stream.recv(4096)
            if not came:
                return
            self.heard += came


def forward(folder, fixed, resets):
    with socket.create_server(("127.0.0.1", 0)) as listener:
        relay, port = watch(cleared(folder), listener.getsockname()[1], "--record-bytes", ".")
        near = socket.create_connection(("127.0.0.1", port), SECONDS)
        far, _ = listener.accept()
    up, down = b"00001 GoTo(X(1))\r\n" + some_bytes(fixed), some_bytes(fixed)
    ends = [End(near, up, fixed, resets), End(far, down, fixed, False)]
    for end in ends:
        end.start()
    for end in ends:
        end.join(SECONDS)
    status, out, error = ended(relay)
    kept = kept_bytes(folder)
    client, server = ends
    if resets:
        must(up.startswith(kept[0]) and kept[0].startswith(server.heard) and down.startswith(kept[1]), "no prefix")
    else:
        must((status, out, error) == (0, "", ""), "relay", status, out, error)
        must(kept == [up, down] and server.heard == up and client.heard == down, "other bytes")


# ---- what fails


def no_file(folder):
    """A told file that cannot be written: the relay does not listen."""
    (folder / "told").mkdir()
    relay, _ = watch(folder, 1)
    must(ended(relay) == (1, "", "dme: cannot write told: is a folder\n"), "folder")
    (folder / "told").rmdir()


def refused_beside(folder):
    """Calls that are refused while a relay keeps bytes: by its port, by its told file, by its folder. They empty nothing."""
    with socket.create_server(("127.0.0.1", 0)) as listener:
        relay, port = watch(folder, listener.getsockname()[1], "--record-bytes", ".")
        near = socket.create_connection(("127.0.0.1", port), SECONDS)
        far, _ = listener.accept()
        near.sendall(b"00001 StartSession()\r\n")
        must(far.recv(4096) == b"00001 StartSession()\r\n", "no relay")
        for other, told, refusal in (
            (port, "other", "dme: connection failed\nport in use\n"),
            (free_port(), "told", "dme: cannot write told: locked by another run\n"),
            (free_port(), "other", "dme: cannot write .\nit holds recordings already\n"),
        ):
            words = ("--listen", str(other), "--host", "127.0.0.1", "--port", "1", "--told", told, "--record-bytes", ".")
            must(called(folder, "watch", *words) == (1, "", refusal), "not refused", refusal)
            must(kept_bytes(folder) == [b"00001 StartSession()\r\n", b""], "emptied", refusal)
            must(not (folder / "other").exists(), "a told file was begun", refusal)
        near.close()
        far.close()
        must(ended(relay) == (0, "", ""), "relay")


def begun_anew(folder):
    """A told file that is there already: it stays as told.old, over an older one."""
    (folder / "told").write_text(TOLD + "1 HOMED\n")
    (folder / "told.old").write_text("older\n")
    with socket.create_server(("127.0.0.1", 0)) as listener:
        relay, port = watch(folder, listener.getsockname()[1])
        with socket.create_connection(("127.0.0.1", port), SECONDS) as near:
            near.sendall(b"00001 StartSession()\r\n")
            with listener.accept()[0] as far:
                must(far.recv(4096) == b"00001 StartSession()\r\n", "no relay")
        must(ended(relay) == (0, "", "dme: what was in told stays as told.old\n"), "relay")
    kept = [(folder / name).read_text() for name in ("told", "told.old")]
    must(kept == [TOLD, TOLD + "1 HOMED\n"], "the earlier file is lost", kept)


def full_file(folder):
    """A told file that cannot grow."""
    server, server_port = serve(folder)
    relay, port = watch(folder, server_port, limit=300)
    must(called(folder, *run_words(port))[0] == 0, "run")
    must(ended(relay) == (1, "", "dme: cannot write told\n"), "relay")
    ended(server)
    must(len((folder / "told").read_bytes()) <= 300, "length")


def nobody(folder):
    """A server that does not listen, and two ends that are silent."""
    server_port = free_port()
    relay, port = watch(folder, server_port)
    with socket.create_connection(("127.0.0.1", port), SECONDS) as stream:
        must(stream.recv(1) == b"", "an answer")
    cause = f"connection refused by 127.0.0.1, port {server_port}: is the server started?\n"
    must(ended(relay) == (1, "", f"dme: connection failed\n{cause}"), "refused")
    with socket.create_server(("127.0.0.1", 0)) as listener:
        relay, port = watch(folder, listener.getsockname()[1], "--timeout", "1")
        with socket.create_connection(("127.0.0.1", port), SECONDS) as stream:
            stream.sendall(b"00001 StartSession()\r\n")
            must(stream.recv(1) == b"", "an answer")
        must(ended(relay) == (1, "", "dme: connection failed\nnothing came for 1 s\n"), "silent")


def strangers(folder):
    """A port that is only looked at does not count; a client that goes while its server stays does not keep the next one waiting; a told
    file that is removed is reported at once. Without a count the relay takes all that come."""
    with socket.create_server(("127.0.0.1", 0)) as listener:
        relay, port = watch(folder, listener.getsockname()[1], "--endless")
        kept_open = []
        for text in (b"", b"0000", b"00001 Home()\r\n", b"00001 Home()\r\n"):
            with socket.create_connection(("127.0.0.1", port), SECONDS) as near:
                near.sendall(text)
                kept_open.append(listener.accept()[0])
                kept_open[-1].settimeout(SECONDS)
                got = b""
                while len(got) < len(text):
                    got += kept_open[-1].recv(4096)
                if text.endswith(b"\n"):
                    kept_open[-1].sendall(b"00001 &\r\n00001 %\r\n")
                    must(near.recv(4096).startswith(b"00001 &\r\n"), "no reply")
            if len(kept_open) == 3:
                (folder / "told").unlink()
        relay.terminate()
        _, out, error = ended(relay)
        for stream in kept_open:
            stream.close()
    bare = "".join(f"dme: connection {number} sent no whole line\n" for number in (1, 2))
    must((out, error) == ("", bare + "dme: cannot write told: removed or replaced\n"), "strangers", out, error)


def check_all(step):
    """How many connections were relayed."""
    fixed, forwards, others = Fixed(38), 60 // step + 6, (bypass, no_file, full_file, nobody, strangers, refused_beside, begun_anew)
    for window in WINDOWS:
        with part() as folder:
            run_through(folder, window)
    with part() as folder:
        left = leave_everywhere(folder, step)
        for at in range(forwards):
            forward(folder, fixed, at % 3 == 2)
        for check in others:
            check(cleared(folder))
    return len(WINDOWS) + left + forwards + len(others)


def check_watched(step=BREAKS):
    return whole("connections that are watched", check_all, step)


if __name__ == "__main__":
    sys.exit(1 if check_watched(int(sys.argv[1]) if sys.argv[1:] else 1)[1] else 0)
