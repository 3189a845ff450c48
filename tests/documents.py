#!/usr/bin/env python3
"""Runs each line of README and of the pages in docs/ that calls `dme`, unchanged except for its port, in a folder with the files of
examples/. Each must end with status 0 and report no fault; if a block below it shows what it prints, it must print exactly that.

A server in the lines of one block serves the client below it; any other server gets a client, and a client without a server gets one. The
block that shows the output is indented, and comes directly after the call or after one paragraph that ends with a colon. `run` calls this;
by itself: tests/documents.py
"""

import contextlib
import os
import re
import shutil
import subprocess
import sys

from common import PROGRAM, ROOT, SECONDS, counted, room
from listening import free_port, wait_for_listener

INDENT = "    "
IN_CRATE = re.compile(r"cd crates/dme_program && rt (?:try|run)(?: --data \S+)? -- (.*)")
CLIENT = "dme run --setup machine.setup --host 127.0.0.1 --port 4000 circle.dmis"
SERVER = "dme serve --setup machine.setup --port 4000"


def call_of(line):
    """The call of `dme` in a line; none if it is another line."""
    inside = IN_CRATE.fullmatch(line)
    if inside:
        return "dme " + inside[1].replace("../../", "")
    return line if line.startswith("dme ") else None


def parts_of(text):
    """The indented blocks of a text and the paragraphs between them, in order, each as its lines."""
    parts, is_block = [], None
    for line in text.splitlines():
        if not line.strip():
            is_block = is_block and None
            continue
        if line.startswith(INDENT) != is_block or not parts:
            is_block = line.startswith(INDENT)
            parts.append((is_block, []))
        parts[-1][1].append(line.removeprefix(INDENT) if is_block else line)
    return parts


def printed_below(parts, at):
    """The output that is shown below a block of calls, that of the last of them; none if no output is shown."""
    behind = parts[at + 1 : at + 3]
    if behind and not behind[0][0] and behind[0][1][-1].endswith(":"):
        behind = behind[1:]
    if behind and behind[0][0] and not any(call_of(it) for it in behind[0][1]):
        return "\n".join(behind[0][1]) + "\n"
    return None


def blocks_of(document):
    """The calls of each block that has any, and the output that is shown for the last of them."""
    parts = parts_of(document.read_text())
    for at, (is_block, lines) in enumerate(parts):
        calls = [call_of(it) for it in lines if call_of(it)] if is_block else []
        if calls:
            yield calls, printed_below(parts, at)


class Calls:
    """Calls in a folder with the files of examples/, with `dme` on the path."""

    def __init__(self, folder):
        self.folder = folder
        for to in (folder, folder / "examples"):
            shutil.copytree(ROOT / "examples", to, dirs_exist_ok=True)
        (folder / "bin").mkdir()
        (folder / "bin" / "dme").symlink_to(PROGRAM)
        self.path = {"PATH": f"{folder}/bin:{os.environ['PATH']}"}

    def started(self, call, port):
        words = call.rstrip("& ").replace(" 4000", f" {port}")
        pipe = subprocess.PIPE
        return subprocess.Popen(f"exec {words}", shell=True, cwd=self.folder, env=os.environ | self.path, stdin=subprocess.DEVNULL, stdout=pipe, stderr=pipe, text=True)

    @contextlib.contextmanager
    def serving(self, call, port):
        """A server, until it ends by itself."""
        server = self.started(call, port)
        wait_for_listener(port, lambda: server.poll() is not None, SECONDS)
        yield
        must_end_well(server)


def must_end_well(process):
    """What a call prints."""
    output, errors = process.communicate(timeout=SECONDS)
    faults = [it for it in errors.splitlines() if it.startswith("dme: ") and not it.startswith(("dme: SHA-256 of ", "dme: part "))]
    if process.returncode != 0 or faults:
        raise AssertionError(f"status {process.returncode}: {errors}")
    return output


def run_block(called, calls):
    """What the last call of a block prints."""
    port = free_port()
    words = [it.split()[1] for it in calls]
    if words[0] == "serve":
        count = int(calls[0].split("--connections ")[1].split()[0]) if "--connections " in calls[0] else 1
        with called.serving(calls[0], port):
            for call in calls[1:] or [CLIENT] * count:
                output = must_end_well(called.started(call, port))
        return output
    for word, call in zip(words, calls):
        with called.serving(SERVER, port) if word == "run" else contextlib.nullcontext():
            output = must_end_well(called.started(call, port))
    return output


def faults_of(called, document):
    """How many blocks of a document have calls, and their faults."""
    faults, count = [], 0
    for calls, printed in blocks_of(document):
        count += 1
        try:
            output = run_block(called, calls)
            if printed is not None and output != printed:
                faults.append(f"{calls[-1]}: {output!r}, not {printed!r}")
        except (AssertionError, subprocess.TimeoutExpired) as why:
            faults.append(f"{calls}: {why}")
    return count, faults


def check_documents():
    failed = blocks = 0
    for document in [ROOT / "README.md", *sorted((ROOT / "docs").glob("*.md"))]:
        with room() as folder:
            count, faults = faults_of(Calls(folder), document) if PROGRAM.exists() else (1, ["no executable"])
        for fault in faults:
            print(f"{document.name}: {fault}")
        failed, blocks = failed + len(faults), blocks + count
    return counted("calls in documents", failed, blocks)


if __name__ == "__main__":
    sys.exit(1 if check_documents()[1] else 0)
