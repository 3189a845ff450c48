"""Runs through `dme watch` whose connections are cut at any byte.

Generated programs of one to four features, with one tool or two and in one frame or two, are run by `dme run` with a features file against
`dme serve`. Between the run and the relay is a cutter: it sends on what comes and cuts each connection, by an end or a reset, after a byte of
either direction that a fixed sequence picks. The run is called again until it is Done. Then:

- what the cutter gave the relay begins with the bytes that the relay kept of the client, and the bytes that it kept of the server begin with
  what it gave the cutter; of a connection that was not cut they are the same;
- what the told file has of a connection is a prefix of what the server's contacts have of it, and all of it if it was not cut;
- `dme ledger` over the bytes that were kept prints the told file, connection by connection, and `dme judge` finds no line that breaks a rule;
- after each connection, the audit of the features that the client holds, over the told file, answers RUNS with a number for each.

`run` calls this with a few connections; by itself: tests/relayed.py [CUTS], until that many connections were cut (5,000 by default).
"""

import concurrent.futures
import itertools
import socket
import sys
import threading

from common import CONTACTS, FAULTS, SECONDS, TOLD, Wrong, called, ended, lost_on_close, must, must_have_runs, room, run_words, text_of, whole
from hostile import Fixed
from killed import SETUP, by_connection
from watched import must_not_be_blamed, serve, watch

CUTS = 5_000
FEW = 30
MOST = 6  # connections of a session
HOW = ("end", "reset")


def program_of(fixed):
    """A program of a few features of a few touches."""
    lines = ["DMISMN/'RELAYED',05.2", "UNITS/MM", "MODE/PROG,MAN", "SNSLCT/S(P1)"]
    for feature in range(1 + fixed.below(4)):
        if fixed.below(3) == 0:
            lines += [f"SNSLCT/S(P{1 + fixed.below(2)})"]
        if fixed.below(4) == 0:
            lines += ["RECALL/D(PART)"]
        touches = 1 + fixed.below(3)
        lines += [f"MEAS/POINT,F(F{feature}),{touches}"]
        for touch in range(touches):
            lines += [f"GOTO/{feature},{touch},5"] * fixed.below(2)
            lines += [f"PTMEAS/CART,{fixed.below(3)},{touch},0,0,0,1"]
        lines += ["ENDMES"]
    return "\n".join([*lines, "ENDFIL"]) + "\n"


class Cutter(threading.Thread):
    """Sends on what comes on one connection, both ways, and cuts it after `most` bytes of one side, and after a call."""

    def __init__(self, port, side, most, how, before_cut=lambda: None):
        super().__init__(daemon=True)
        self.listener = socket.create_server(("127.0.0.1", 0))
        self.port = self.listener.getsockname()[1]
        self.relay_port, self.side, self.most, self.how, self.before_cut = port, side, most, how, before_cut
        self.sent = {"up": b"", "down": b""}
        self.is_cut = False
        self.ends = []

    def run(self):
        self.listener.settimeout(SECONDS)
        near, _ = self.listener.accept()
        self.listener.close()
        far = socket.create_connection(("127.0.0.1", self.relay_port), SECONDS)
        self.ends = [near, far]
        for stream in self.ends:
            stream.setsockopt(socket.IPPROTO_TCP, socket.TCP_NODELAY, 1)
            stream.settimeout(SECONDS)
        up = threading.Thread(target=self.carry, args=("up", near, far), daemon=True)
        up.start()
        self.carry("down", far, near)
        up.join(SECONDS)
        for stream in self.ends:
            stream.close()

    def carry(self, side, source, sink):
        try:
            while (came := source.recv(4096)) and not self.is_cut:
                left = self.most - len(self.sent[side]) if side == self.side else len(came)
                sink.sendall(came[:left])
                self.sent[side] += came[:left]
                if left < len(came):
                    self.cut()
                    return
            if not self.is_cut:
                sink.shutdown(socket.SHUT_WR)
        except OSError:
            pass

    def cut(self):
        """Both directions stop. `run` closes the streams, which resets them if they are not to linger."""
        self.before_cut()
        self.is_cut = True
        for stream in self.ends:
            try:
                if self.how == "reset":
                    lost_on_close(stream)
                stream.shutdown(socket.SHUT_RDWR if self.how == "end" else socket.SHUT_RD)
            except OSError:
                pass


def lines_of(folder, name, head):
    """The lines of a file after its first, by the number of their connection."""
    text = (folder / name).read_text()
    must(text.startswith(head) and text.endswith("\n"), name, text[:80])
    return by_connection((it.split(" ")[0], it) for it in text[len(head):].splitlines())


def must_be_held(folder):
    """The audit of what the client holds, over what the relay has written."""
    held = text_of(folder / "part.features").count("FEATURE ")
    if held:
        error = must_have_runs(folder, held, "--features", "part.features", "--contacts", "told")
        must(all(it.startswith("dme: SHA-256 of ") for it in error.splitlines()), "audit", error)


def run_once(folder, window, cutter):
    cutter.start()
    status, report, error = called(folder, *run_words(cutter.port, "--window", str(window), "--features", "part.features"))
    cutter.join(SECONDS)
    must(status == 0 or cutter.is_cut, "run", status, report, error)
    return report.startswith("STATE Done")


def ledger_lines(folder, number):
    words = ("ledger", "--up", f"{number}.up", "--down", f"{number}.down", "--connection", str(number))
    status, text, _ = called(folder, *words)
    must(status == 0 and text.startswith(TOLD), "ledger", status, text[:80])
    return text[len(TOLD):].splitlines()


def compare(folder, cutters):
    """The files that both ends and the relay leave."""
    told, made = lines_of(folder, "told", TOLD), lines_of(folder, "contacts", CONTACTS)
    for number, cutter in enumerate(cutters, 1):
        up, down = ((folder / f"{number}.{it}").read_bytes() for it in ("up", "down"))
        must(cutter.sent["up"].startswith(up) and down.startswith(cutter.sent["down"]), "other bytes", number)
        reported, done = told[number], made[number]
        must(done[: len(reported)] == reported, "no prefix", number, reported, done)
        must(ledger_lines(folder, number) == reported, "the ledger of the bytes is another", number)
        must_not_be_blamed(folder, number)
        if not cutter.is_cut:
            must((up, down) == (cutter.sent["up"], cutter.sent["down"]) and reported == done, "less than all", number)


def session(folder, seed):
    """A program that is run until it is Done: how many of its connections were cut."""
    fixed = Fixed(seed)
    (folder / "part.dmis").write_text(program_of(fixed))
    plan = called(folder, "check", "--setup", "machine.setup", "part.dmis")[1]
    bytes_up = len(plan) + plan.count("\n")
    window = fixed.one_of((1, 4, 16))
    server, server_port = serve(folder, "--connections", str(MOST))
    relay, port = watch(folder, server_port, "--record-bytes", ".", "--endless")
    cutters, is_done = [], False
    while not is_done:
        is_last = len(cutters) + 1 == MOST
        most = sys.maxsize if is_last else fixed.below(bytes_up)
        cutters.append(Cutter(port, fixed.one_of(("up", "down")), most, fixed.one_of(HOW)))
        is_done = run_once(folder, window, cutters[-1])
        must(is_done or not is_last, "it is not Done")
        must_be_held(folder)
    for _ in range(len(cutters), MOST):
        socket.create_connection(("127.0.0.1", port), SECONDS).close()
    must(ended(server)[0] in (0, 1), "an end")
    relay.terminate()
    must(ended(relay)[1] == "", "an output of the relay")
    compare(folder, cutters)
    return sum(it.is_cut for it in cutters)


def one_session(seed):
    with room({"machine.setup": SETUP}) as folder:
        try:
            return session(folder, seed)
        except FAULTS as wrong:
            raise Wrong(f"session {seed}: {wrong}") from wrong


def sessions_of(cuts):
    """Sessions until that many connections were cut."""
    done = 0
    with concurrent.futures.ThreadPoolExecutor(4) as pool:
        for first in itertools.count(1, 16):
            done += sum(pool.map(one_session, range(first, first + 16)))
            if done >= cuts:
                return f"{done}, in {first + 15} sessions"


def check_relayed(cuts=FEW):
    return whole("connections that are cut", sessions_of, cuts)


if __name__ == "__main__":
    sys.exit(1 if check_relayed(int(sys.argv[1]) if sys.argv[1:] else CUTS)[1] else 0)
