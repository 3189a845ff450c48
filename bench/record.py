#!/usr/bin/env python3
"""Measures what a record costs a run: `dme run` against `dme serve` over TCP, with and without `--record`, by the instructions that the run
executes (valgrind --tool=callgrind, which does not see the kernel's), and prints the table of RESULTS.md.

Both runs measure the same program of touches. Half of the touches and all of them are measured, and the same run with no touch is subtracted;
growth is the cost of the second half divided by that of the first, so that a list that is walked from its beginning at each turn shows. The
record that is left must have a contact for each touch and complete each feature.

It needs valgrind and the built program (see counting.py). It takes a few minutes.

usage: bench/record.py [DME]    DME is the program measured, if not the built one
"""
import concurrent.futures
import subprocess
import sys

from counting import built, profiled
from common import room
from listening import free_port, wait_for_listener
from loop import program_of, setup

TOUCHES = 9_800
WINDOWS = (1, 16)


def served(dme, folder, port, *more):
    """A server that listens on the port, for one connection."""
    words = [dme, "serve", "--setup", "machine.setup", "--port", str(port), "--connections", "1", *more]
    server = subprocess.Popen(words, cwd=folder, stdout=subprocess.DEVNULL)
    wait_for_listener(port, lambda: server.poll() is not None, 60)
    return server


def cost(dme, touches, window, with_record):
    """The instructions of a run of that many touches."""
    with room({"machine.setup": setup(), "part.dmis": program_of(touches)}) as folder:
        port = free_port()
        server = served(dme, folder, port)
        words = [dme, "run", "--setup", f"{folder}/machine.setup", "--host", "127.0.0.1", "--port", str(port), "--window", str(window)]
        words += ["--record", f"{folder}/part.record", "--part", "0042/7"] if with_record else []
        instructions, _, printed = profiled([*words, f"{folder}/part.dmis"])
        if not printed.startswith(b"STATE Done\n"):
            sys.exit(f"the run is not Done: {printed[:100]}")
        server.wait(60)
        if with_record:
            lines = (folder / "part.record").read_text().splitlines()
            contacts = sum(" CONTACT " in it for it in lines)
            completed = sum(" COMPLETED " in it for it in lines)
            if (contacts, completed) != (touches, -(-touches // 100)):
                sys.exit(f"the record has {contacts} contacts and {completed} completed features")
        return instructions


def row(dme, window, with_record):
    """Instructions a touch, and their growth."""
    none, half, whole = (cost(dme, it, window, with_record) for it in (0, TOUCHES // 2, TOUCHES))
    return (whole - none) / TOUCHES, (whole - half) / (half - none)


def main(words):
    dme = words[0] if words else built("dme_program")
    cases = [(window, with_record) for window in WINDOWS for with_record in (False, True)]
    with concurrent.futures.ThreadPoolExecutor(2) as pool:
        rows = dict(zip(cases, pool.map(lambda it: row(dme, *it), cases)))
    print("| A run over TCP | Instructions a touch | with a record | ratio | growth | growth with a record |\n|---|---|---|---|---|---|")
    for window in WINDOWS:
        (bare, growth), (kept, kept_growth) = rows[window, False], rows[window, True]
        print(f"| window {window} | {bare:,.0f} | {kept:,.0f} | {kept / bare:.2f} | {growth:.2f} | {kept_growth:.2f} |")


if __name__ == "__main__":
    main(sys.argv[1:])
