"""Refuses each growth of a run in turn: the first, then the second, up to the last that it makes (refuse.c).

Each run of a command must end with status 4 and `dme: out of memory`. `check`, `review`, `simulate`, `audit`, `export`, `report` and `explain` have
then printed nothing; a command over a connection has printed nothing, or the report of what was done until then, and has left its file as it
was or put a prefix of it there. For the calls that these commands make (`test_calls`), each growth of a pump or of a whole connection must be
answered as out of memory, the side has left, and a prefix of its lines has gone out. A run may ask for room in advance and manage without
it; then it may be as if nothing was refused, in one case for each run.

`run` calls this; by itself: tests/growths.py [NAME ..]
"""

import os
import shutil
import subprocess
import sys
import tempfile

from common import CALLS, EXAMPLES, PROGRAM, SECONDS, TESTS, counted, ended, must, parts_of_calls, room, text_of, tried
from listening import free_port, wait_for_listener

WANT = (4, "dme: out of memory\n")
# The last line of a run, after that.
STOPPED = "dme: stopped: {} of 1 feature complete. Remove the cause, then make the same call.\n"

# A call of pumps or of a whole connection, on what follows `replies ONE` or `commands ONE`, and what it answers if there is memory.
CALL_ROWS = {
    "a_turn_of_a_client": ("turns ONE 1", "least 9, bound 100 < 00001 &|;", "Moved { read: 9, written: 22 } Running on: "),
    "a_run_of_a_client": ("runs ONE 1", "least 1 < all", "() Done on: "),
    "a_run_of_a_client_byte_by_byte": ("runs ONE 1", "takes 1 < all", "() Done on: "),
    "a_loop_of_both": ("loops ONE 1", "least 1 < all", "() Done on: "),
    "a_turn_of_a_server": ("serves", "least 22, bound 4 < 00001 StartSession()|;", "Moved { read: 22, written: 18 } on: "),
    "a_run_of_a_server": ("connections", "least 1 < 00001 StartSession()|;00002 Home()|;", "() off: "),
}

# Independent rows of `test_calls`, which it makes again if it runs out of memory: it must print what it prints with all memory, with or without
# the note that a call was refused and everything is as before, or, if the refusal of a text has its own words, that it was out of memory.
RETRIED_ROWS = {
    "setup": ("setups", "TOOL P1;TOOL P2;FRAME PART 100 0 0;SHIFT 0.002 0 0;SHIFT 0 0 0.004;SHIFT -0.001 0.001 0;"),
    "schedule": ("schedules", "connect;accept 1;machine touched 1 2 3;up all;down 5;quiet 3;quiet"),
    "features": ("features", "DME-FEATURES 2;FEATURE A 1 1 M;1.000 2.000 3.000;END;FEATURE B 1 1 P 100.000 0.000 0.000;0.000 0.000 0.000;END;"),
    "contacts": ("contacts", "DME-CONTACTS 1;1 HOMEDIS 0;1 HOMED;2 MOVED -0.001 0.000 1.000 M;2 CHANGED P1;2 FRAMED P 1.000 0.000 0.000;"
                             "3 CONTACT 1.000 2.000 3.000 D -1.000000 0.500000 1.000000 P2 P 0.000 0.000 1.000 1.001 2.000 3.000;"),
}

# A command on files, which prints everything or nothing.
FILE_ROWS = {
    "check": "check --setup two_clampings.setup two_clampings.dmis",
    "simulate": "simulate --setup machine.setup --schedule break_inside_a_feature.schedule circle.dmis",
    "audit": "audit --setup machine.setup --features break_inside_a_feature.features"
    " --contacts break_inside_a_feature.contacts circle.dmis",
    "export": "export --as csv --setup machine.setup --features break_inside_a_feature.features circle.dmis",
    "export_svg": "export --as svg --setup machine.setup --features break_inside_a_feature.features circle.dmis",
    "audit_record": "audit --setup machine.setup --record break_inside_a_feature.record circle.dmis",
    "export_features": "export --as features --record break_inside_a_feature.record circle.dmis",
    "report": "report --record break_inside_a_feature.record circle.dmis",
    "export_contacts": "export --as contacts --record break_inside_a_feature.record circle.dmis",
    "explain": "explain P5",
}

# Reviews of refused programs, likewise.
REVIEW_ROWS = {
    "review": "review --setup two_clampings.setup calypso_style_ring.dmis",
    "review_as_json": "review --as json --setup two_clampings.setup pc_dmis_style_block.dmis",
}


class Refusing:
    """Runs programs with one growth refused."""

    def __init__(self, folder):
        self.library = folder / "refuse.so"
        subprocess.run(["cc", "-O1", "-shared", "-fPIC", "-o", self.library, TESTS / "refuse.c"], check=True)

    def started(self, words, number, folder=EXAMPLES, counts=None, text=None):
        """A program with the growth of this number refused; the count of its growths goes to a file, if there is one."""
        told = dict(os.environ, LD_PRELOAD=str(self.library), REFUSE=str(number))
        if counts is not None:
            told["REFUSE_COUNT"] = str(counts.fileno())
        kept = () if counts is None else (counts.fileno(),)
        return subprocess.Popen(words, cwd=folder, env=told, pass_fds=kept, stdin=subprocess.PIPE if text else subprocess.DEVNULL,
                                stdout=subprocess.PIPE, stderr=subprocess.PIPE, text=True)

    def all_of(self, run, most=None):
        """The results of a run with all memory, and with each of its growths refused in turn, or each of the first ones. `run` takes the number and
        a file of counts."""
        with tempfile.TemporaryFile("w+") as counts:
            whole = run(0, counts)
            counts.seek(0)
            growths = int(counts.read().split()[0])
        return whole, [run(number, None) for number in range(1, growths + 1)[:most]]

    def all_of_words(self, words):
        """Likewise of a command in examples/."""
        return self.all_of(lambda number, counts: ended(self.started([PROGRAM, *words.split()], number, counts=counts)))

    def all_of_calls(self, text, most=None):
        """Likewise of `test_calls` on a text."""
        return self.all_of(lambda number, counts: ended(self.started([CALLS], number, counts=counts, text=text), text), most)


def is_front(rows, whole):
    return whole[:len(rows)] == rows


def must_be_front_of_report(output, whole):
    """Nothing, or the report of a client that has left: its features and contacts are prefixes of those of the whole run."""
    rows, all_rows = output.splitlines(), whole.splitlines()
    if not rows:
        return
    is_contact = lambda row: row.startswith("CONTACT ")
    must(rows[0] == "STATE Apart" or rows[0] == all_rows[0], "another state", output)
    must(int(rows[1].split()[1]) <= int(all_rows[1].split()[1]), "more is counted", output)
    for part in (is_contact, lambda row: not is_contact(row)):
        must(is_front(list(filter(part, rows[2:])), list(filter(part, all_rows[2:]))), "is not a prefix", output)


# A run that has no memory to lock its file, before anything moves.
UNLOCKED = (1, "", "dme: cannot write features: out of memory\n")


def must_want_memory(whole, runs, and_so, spared=1):
    """All runs except at most this number end out of memory, and their output has this property."""
    others = [it for it in runs if it != whole]
    must(len(others) >= len(runs) - spared, "done without", len(runs) - len(others), "of", len(runs))
    for run in others:
        must((run[0], run[2]) == WANT, "another end", run)
        and_so(run)
    return len(others)


def file_row(refusing, words, status=0):
    whole, runs = refusing.all_of_words(words)
    notes = [it for it in whole[2].splitlines() if not it.startswith("dme: SHA-256 of ")]
    must(whole[0] == status and whole[1] and not notes, "with all memory", whole)
    return must_want_memory(whole, runs, lambda run: must(run[1] == "", "something is printed", run))


def traced_row(refusing, words):
    """A command that shows its lines on standard error: all of them or none, followed by the report that it was out of memory."""
    whole, runs = refusing.all_of_words(words)
    must(whole[0] == 0 and whole[2].count(" > ") > 5, "with all memory", whole)
    others = [it for it in runs if it != whole]
    must(len(others) >= len(runs) - 1, "done without", len(runs) - len(others), "of", len(runs))
    for run in others:
        must(run[:2] == (4, "") and run[2] in (WANT[1], whole[2] + WANT[1]), "another end", run)
    return len(others)


def explained_row(refusing, words):
    """A command that refuses a file and shows where: out of memory, or the refusal with its place, or without it."""
    whole, runs = refusing.all_of_words(words)
    refusal = whole[2].splitlines(keepends=True)
    must(whole[:2] == (1, "") and len(refusal) == 3, "with all memory", whole)
    for run in runs:
        must(run in (whole, (1, "", refusal[0]), (WANT[0], "", WANT[1])), "another end", run)
    must((1, "", refusal[0]) in runs and (WANT[0], "", WANT[1]) in runs, "no growth of both kinds")
    return len([it for it in runs if it != whole])


def loop_row(refusing, words):
    whole, runs = refusing.all_of_words(words)
    must(whole[0] == 0 and "FEATURE " in whole[1], "with all memory", whole)
    # What a setup lacks is a warning, and one that cannot be written changes nothing: two growths more.
    count = must_want_memory(whole, runs, lambda run: must_be_front_of_report(run[1], whole[1]), 3)
    must(any(run[1] for run in runs if run != whole), "no report of what was done")
    return count


class Pair:
    """`dme serve` and `dme run` over one connection, each with its file; a growth of the end under test is refused."""

    ENDS = {
        "serve": "serve --setup machine.setup --port PORT --contacts contacts",
        "run": "run --setup machine.setup --host 127.0.0.1 --port PORT --features features circle.dmis",
    }
    FILES = {"serve": "contacts", "run": "features"}

    def __init__(self, refusing, looked_at, option="--features"):
        self.refusing, self.looked_at, self.option = refusing, looked_at, option

    def started(self, end, port, number, counts, folder):
        words = self.ENDS[end].replace("PORT", str(port)).replace("--features", self.option).split()
        is_own = end == self.looked_at
        return self.refusing.started([PROGRAM, *words], number if is_own else 0, folder, counts if is_own else None)

    def run(self, number, counts):
        """The end under test, and the text of its file."""
        with room() as folder:
            for name in ("machine.setup", "circle.dmis"):
                shutil.copy(EXAMPLES / name, folder)
            port = free_port()
            server = self.started("serve", port, number, counts, folder)
            wait_for_listener(port, lambda: server.poll() is not None, SECONDS)
            client = self.started("run", port, number, counts, folder)
            status, output, errors = ended(client)
            given = {"run": (status, output, errors.removesuffix(STOPPED.format(0)).removesuffix(STOPPED.format(1)) if status else errors)}
            if self.looked_at == "run" and given["run"][0] != 0:
                # A server whose client never comes would wait forever.
                server.kill()
            given["serve"] = ended(server)
            file = folder / self.FILES[self.looked_at]
            must(not file.with_suffix(".new").exists(), "a file is left next to it")
            return given[self.looked_at], text_of(file)


def must_be_front_of_file(text, whole, ends):
    """Nothing, or the whole lines up to one of these ends."""
    rows, all_rows = text.splitlines(), whole.splitlines()
    must(is_front(rows, all_rows) and (len(rows) <= 1 or rows[-1].startswith(ends)), "is not a prefix of its file", text)


def must_want_reports(whole, runs):
    return must_want_memory(whole, [it for it, _ in runs if it != UNLOCKED], lambda run: must_be_front_of_report(run[1], whole[1]))


def run_row(refusing):
    (whole, file), runs = refusing.all_of(Pair(refusing, "run").run)
    must(whole[0] == 0 and "FEATURE C" in whole[1] and file.endswith("END\n"), "with all memory", whole, file)
    for end, text in runs:
        must_be_front_of_file(text, file, "END")
        must(end != whole or text == file, "done, and its file is not whole", text)
    return must_want_reports(whole, runs)


def kept_row(refusing, option, is_whole):
    """A run that has no memory for its record, or for the contacts that the server reports, ends so; the file is a prefix of the whole one."""
    (whole, file), runs = refusing.all_of(Pair(refusing, "run", option).run)
    must(whole[0] == 0 and is_whole(file), "with all memory", whole, file)
    for _, text in runs:
        must(file.startswith(text), "is not a prefix of its file", text)
    return must_want_reports(whole, runs)


def serve_row(refusing):
    (whole, file), runs = refusing.all_of(Pair(refusing, "serve").run)
    must(whole[0] == 0 and whole[1].count("CONTACT ") == 3 and file.count("\n") > 3, "with all memory", whole, file)
    for _, text in runs:
        must_be_front_of_file(text, file, "1 ")
    rows = whole[1].splitlines()
    # Without memory for the text of a turn's acts the server continues, and its file has them at the end: forty growths at most.
    return must_want_memory(whole, [it for it, _ in runs], lambda run: must(is_front(run[1].splitlines(), rows), "is not a prefix", run), 40)


def call_row(refusing, group, row, answer):
    """`test_calls` makes the call alone; its own growths end it with status 1 or 4. Its ports keep what went out in memory, so a refused growth of
    theirs is a port that fails."""
    text = f"{parts_of_calls('[program ONE]', '[setup]', '[replies ONE]', '[commands ONE]')}[{group}]\n{row}\n"
    whole, runs = refusing.all_of_calls(text)
    last = whole[1].splitlines()[-1]
    must(whole[0] == 0 and last.startswith(f"{row} => {answer}"), "with all memory", last)
    lines = last.partition(" on: ")[2] or last.partition(" off: ")[2]
    refused = [it[1].splitlines()[-1].removeprefix(f"{row} => ") for it in runs if it != whole and it[0] == 0]
    for told in refused:
        why, _, went_out = told.partition(": ")
        must(("Memory" in why or "WriteFailed" in why) and "off" in why, "another answer", told)
        must("loops" in group or lines.startswith(went_out.partition(" features")[0]), "other lines went out", told)
    must(all(it[0] == 0 or it[0] in (1, 4) and it[2] == "" for it in runs), "another end")
    wanting = [told for told in refused if "Memory" in told]
    must(wanting, "no growth of the call was met")
    return len(wanting)


def retried_row(refusing, head, row):
    """The program recovers from each refused growth, or the row says that it was out of memory, or the program itself ends for it."""
    whole, runs = refusing.all_of_calls(f"{parts_of_calls('[program ', '[setup]')}[{head}]\n{row}\n")
    shown = whole[1].splitlines()[-1].removeprefix(f"{row} => ")
    must(whole[0] == 0 and shown and "changed" not in shown and "Memory" not in shown, "with all memory", shown)
    wanting = (0, whole[1].replace(f"{row} => {shown}\n", f"{row} => out of memory\n"), "")
    again = (0, whole[1].replace(f"{row} => {shown}\n", f"{row} => refused, as before; {shown}\n"), "")
    for run in runs:
        must(run in (whole, wanting, again) or (run[0] in (1, 4) and run[1:] == ("", "")), "another end", run[0], run[1].splitlines()[-1:])
    of_the_row = sum(run in (whole, wanting, again) for run in runs)
    must(of_the_row > 3, "of the row", of_the_row, "of", len(runs))
    return of_the_row


# What is tried by each name, and on what.
ROWS = {name: (file_row, words) for name, words in FILE_ROWS.items()} | {name: (file_row, words, 1) for name, words in REVIEW_ROWS.items()} | {
    "traced": (traced_row, "simulate --trace --setup machine.setup --schedule break_inside_a_feature.schedule circle.dmis"),
    "explained": (explained_row, "check --explain two_clampings.dmis"),
    "loop": (loop_row, "loop --setup machine.setup circle.dmis"),
    "loop_of_two_features": (loop_row, "loop --setup machine.setup --window 16 two_frames.dmis"),
    "run": (run_row,),
    "recorded": (kept_row, "--part 0042/7 --record", lambda file: file.endswith("1 COMPLETED C\n")),
    "reported": (kept_row, "--contacts", lambda file: file.count(" CONTACT ") == 3),
    "serve": (serve_row,),
}
ROWS |= {name: (call_row, *row) for name, row in CALL_ROWS.items()} | {name: (retried_row, *row) for name, row in RETRIED_ROWS.items()}


def check_growths(names=()):
    wrong = 0
    with room() as folder:
        refusing = Refusing(folder)
        for name in names or ROWS:
            row, *words = ROWS[name]
            count = tried(f"growths of {name}", row, refusing, *words)
            wrong += count is None
            if names and count is not None:
                print(f"growths of {name}: {count} growths refused")
    return counted("rows of refused growths", wrong, len(names or ROWS))


if __name__ == "__main__":
    sys.exit(1 if check_growths(sys.argv[1:] or list(ROWS))[1] else 0)
