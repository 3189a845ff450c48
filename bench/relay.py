#!/usr/bin/env python3
"""Measures what `dme watch` costs between a client and a server, and prints the tables of RESULTS.md.

A program of touches is run by `dme run` against `dme serve`: directly, through a bare forwarder (plain/src/bin/forward.rs), which reads and
writes the same bytes and understands nothing of them, and through `dme watch`. The least of N runs counts: the time of the run by the clock, and
the processor time of what stands between, the kernel's included. What `dme watch` has written must be the contacts of the server.

Then a gigabyte of moves and their replies goes through both, and the peak of the relay's memory is read after a tenth of it and at its end.

It needs cargo and the built program (see counting.py). It takes some minutes, and 2 GB of disk.

usage: bench/relay.py [--runs N] [--megabytes N] [DME]    DME is the program measured, if not the built one
"""
import argparse
import os
import pathlib
import re
import socket
import subprocess
import sys
import threading
import time

from counting import built, plain
from common import CONTACTS, TOLD, room
from listening import free_port, wait_for_listener
from loop import program_of, setup
from record import served

TOUCHES = 9_800
WINDOWS = (1, 16)


class Between:
    """What stands between a client and a server: nothing, a bare forwarder, or the relay."""

    def __init__(self, kind, dme, folder, server_port):
        self.kind, self.port = kind, server_port
        if kind == "direct":
            return
        self.port = free_port()
        words = {
            "forward": [plain("forward"), str(self.port), str(server_port)],
            "watch": [dme, "watch", "--listen", str(self.port), "--host", "127.0.0.1", "--port", str(server_port), "--told", "told", "--connections", "1"],
        }[kind]
        self.process = subprocess.Popen(words, cwd=folder)
        wait_for_listener(self.port, lambda: self.process.poll() is not None, 60)

    def peak(self):
        """The peak of its memory so far, in KiB."""
        return int(re.search(r"VmHWM:\s+(\d+)", pathlib.Path(f"/proc/{self.process.pid}/status").read_text()).group(1))

    def end(self):
        """Its processor time in seconds."""
        if self.kind == "direct":
            return 0.0
        _, status, usage = os.wait4(self.process.pid, 0)
        if status != 0:
            sys.exit(f"{self.kind} ended with {status}")
        return usage.ru_utime + usage.ru_stime


def run(dme, kind, window):
    """The time of a run by the clock and the processor time of what stands between, in seconds."""
    with room({"machine.setup": setup(), "part.dmis": program_of(TOUCHES)}) as folder:
        port = free_port()
        server = served(dme, folder, port, "--contacts", "contacts")
        between = Between(kind, dme, folder, port)
        words = [dme, "run", "--setup", "machine.setup", "--host", "127.0.0.1", "--port", str(between.port), "--window", str(window), "part.dmis"]
        begin = time.perf_counter()
        printed = subprocess.run(words, cwd=folder, stdout=subprocess.PIPE).stdout
        taken = time.perf_counter() - begin
        if not printed.startswith(b"STATE Done\n"):
            sys.exit(f"the run is not Done: {printed[:100]}")
        server.wait(60)
        processor = between.end()
        if kind == "watch" and (folder / "told").read_text().removeprefix(TOLD) != (folder / "contacts").read_text().removeprefix(CONTACTS):
            sys.exit("the told file is not the contacts")
        return taken, processor


def runs_table(dme, runs):
    print("| A run of 9,800 touches | direct | through a forwarder | through `dme watch` | more than direct, a touch |"
          " forwarder, processor | `dme watch`, processor | ratio |\n|---|---|---|---|---|---|---|---|")
    for window in WINDOWS:
        least = {}
        for _ in range(runs):
            for kind in ("direct", "forward", "watch"):
                found = run(dme, kind, window)
                least[kind] = tuple(map(min, found, least.get(kind, found)))
        (direct, _), (forward, forward_cpu), (watch, watch_cpu) = (least[it] for it in ("direct", "forward", "watch"))
        print(f"| window {window} | {direct * 1e3:.0f} ms | {forward * 1e3:.0f} ms | {watch * 1e3:.0f} ms | {(watch - direct) / TOUCHES * 1e6:.1f} µs |"
              f" {forward_cpu * 1e3:.0f} ms | {watch_cpu * 1e3:.0f} ms | {watch_cpu / forward_cpu:.2f} |", flush=True)


# ---- a gigabyte

TAGS = range(1, 101)  # that many commands are open at most
UP = "".join(f"{tag:05} GoTo(X(1.000), Y(2.000), Z(3.000))\r\n" for tag in TAGS).encode()
DOWN = "".join(f"{tag:05} &\r\n{tag:05} %\r\n" for tag in TAGS).encode()


def taken(stream, count):
    """Receives so many bytes."""
    while count:
        came = stream.recv(min(count, 1 << 20))
        if not came:
            sys.exit("the connection has ended")
        count -= len(came)


def answer(listener):
    """A server that answers each block of moves."""
    stream, _ = listener.accept()
    stream.settimeout(60)
    while stream.recv(1, socket.MSG_PEEK):
        taken(stream, len(UP))
        stream.sendall(DOWN)
    stream.close()


def forwarded(dme, kind, megabytes):
    """The seconds that so many bytes take, the processor time, and the peak of memory after a tenth and at the end."""
    rounds = megabytes * 1_000_000 // (len(UP) + len(DOWN)) + 1
    with room() as folder, socket.create_server(("127.0.0.1", 0)) as listener:
        server = threading.Thread(target=answer, args=(listener,), daemon=True)
        server.start()
        between = Between(kind, dme, folder, listener.getsockname()[1])
        begin, peaks = time.perf_counter(), []
        with socket.create_connection(("127.0.0.1", between.port), 60) as stream:
            for number in range(rounds):
                stream.sendall(UP)
                taken(stream, len(DOWN))
                if number + 1 in (rounds // 10, rounds):
                    peaks.append(between.peak())
        processor = between.end()
        seconds = time.perf_counter() - begin
        told = os.path.getsize(folder / "told") if kind == "watch" else 0
        line = len("1 MOVED 1.000 2.000 3.000 ?\n")
        if kind == "watch" and told != len(TOLD) + rounds * len(TAGS) * line:
            sys.exit(f"the told file has {told} bytes")
        return seconds, processor, peaks


def gigabyte_table(dme, megabytes):
    print(f"\n| {megabytes:,} MB of moves and replies | by the clock | processor | peak after a tenth | peak at the end |\n|---|---|---|---|---|")
    for kind in ("forward", "watch"):
        seconds, processor, (tenth, end) = forwarded(dme, kind, megabytes)
        print(f"| {kind} | {seconds:.1f} s | {processor:.1f} s | {tenth:,} KiB | {end:,} KiB |", flush=True)


def main():
    parser = argparse.ArgumentParser()
    parser.add_argument("--runs", type=int, default=5)
    parser.add_argument("--megabytes", type=int, default=1_000)
    parser.add_argument("dme", nargs="?", default=built("dme_program"))
    words = parser.parse_args()
    dme = os.path.abspath(words.dme)
    runs_table(dme, words.runs)
    gigabyte_table(dme, words.megabytes)


if __name__ == "__main__":
    main()
