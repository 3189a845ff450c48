#!/usr/bin/env python3
"""What takes too long for the gate, before a release. The last line is `N passed, M failed` over all parts.

  edits    all edits, most of which the gate does not try (tools/edits): the prover must refuse each
  events   a world of nine million events, of which a million can happen when they come (tests/stopped.py)
  faults   each call of a run, its service and a relay for their files and their connection, failing or the last (tests/faults.py); with faults=N
           each N-th
  growths  every row of calls and every row of tests/program/ without another end, with each growth of its program refused in turn: the program
           ends with its own words for out of memory, or gives what it gives with all memory, and never anything else. With growths=N it
           refuses only the first N growths of each.
  lies     120 sessions against a server that breaks off and lies, begun again until they are Done (tests/lying.py)
  kills    runs that are killed at 2,001 moments and begun again, over a record and as many over a features file (tests/killed.py)
  relayed  5,000 connections through `dme watch` that are cut at any byte (tests/relayed.py)
  reviews  3,000 generated programs and their reviews (tests/reviews.py)

usage: tests/releases.py [PART ..]     by default all parts; a part may be limited: edits=CRATE, events=COUNT, growths=N, kills=MOMENTS, lies=SESSIONS,
relayed=CUTS, reviews=PROGRAMS,
faults=STEP

It needs the executables that `tests/run` has built.
"""

import concurrent.futures
import functools
import re
import subprocess
import sys
import time

from common import PROGRAM, ROOT, ROWS_OF_CALLS, TESTS, ended, must, parts_of, room, tried
from faults import check_faults
from growths import WANT, Refusing
from killed import WINDOWS, check_killed
from lying import check_lying
from relayed import CUTS, check_relayed
from reviews import check_reviews
from rows import program_rows

ALONE = ("check", "review", "simulate", "audit", "loop")  # the commands that need no other end
ANY = 1_000_000
EVENTS = 9_100_000
LIES = 120  # sessions, spread over the windows
REVIEWS = 3_000  # programs
KILLS = 2_001  # moments over each of both files, spread over the windows


def counts_of(words):
    """The counts in the last line of a command, whose output is shown as it comes."""
    last = ""
    with subprocess.Popen(words, cwd=ROOT, stdout=subprocess.PIPE, text=True, errors="replace") as process:
        for line in process.stdout:
            print(line, end="", flush=True)
            last = line.strip() or last
    counts = re.fullmatch(r"(\d+) passed, (\d+) failed", last)
    return (int(counts[1]), int(counts[2])) if counts else (0, 1)


def edits(portion):
    return counts_of([str(ROOT / "tools" / "edits"), *([portion] if portion else [])])


def events(portion):
    done = subprocess.run([sys.executable, str(TESTS / "stopped.py"), portion or str(EVENTS)])
    return (1, 0) if done.returncode == 0 else (0, 1)


# ---- each growth of each row

def is_alone(row):
    """A row of one `dme` without another end, whose standard streams are files."""
    kinds = {"from", "to", "memory", "peer", "serve", "again", "stdin_again"}
    return row.words and row.words[0] in ALONE and not kinds & {*row.lines, *row.texts, *row.further}


def program_run(refusing, row, number, counts):
    """What a row of tests/program/ gives if this growth is refused."""
    text = row.texts["stdin"].decode(errors="surrogateescape") if "stdin" in row.texts else None
    with room() as folder:
        row.write_into(folder)
        return ended(refusing.started([PROGRAM, *row.words], number, folder, counts, text), text)


def part_runs():
    """Each part of the rows of calls, with the texts that it uses."""
    parts = parts_of(ROWS_OF_CALLS.read_text())
    texts = "".join(it for it in parts if it.startswith(("[program ", "[setup]", "[replies ", "[commands ", "[ways ", "[ending ")))
    for at, it in enumerate(parts):
        head = it.split("]")[0].removeprefix("[")
        if not head.startswith(("program ", "setup", "replies ", "commands ", "ways ", "ending ")):
            yield f"{head}, part {at}", texts + it


def wants(whole, run):
    """An end out of memory after what was reported by then, with nothing printed or the report of what was done."""
    told = run[2].removesuffix(WANT[1])
    return (run[0] == WANT[0] and run[2].endswith(WANT[1]) and whole[2].startswith(told)
            and (run[1] == "" or "FEATURE" in run[1] or run[1].startswith("STATE ")))


def is_unexplained(whole, run):
    """The refusal alone, if there was no memory for what is shown of its file."""
    told = whole[2].splitlines(keepends=True)
    return whole[0] != 0 and len(told) > 1 and run == (*whole[:2], told[0])


def is_untraced(whole, run):
    """The lines of one side end with the report that it was out of memory for them; everything else is as with all memory."""
    for mark in ("1 > ", "1 < "):
        own = [[it for it in told[2].splitlines() if it.startswith(mark)] for told in (whole, run)]
        others = [[it for it in told[2].splitlines() if not it.startswith(mark)] for told in (whole, run)]
        if run[:2] == whole[:2] and others[0] == others[1] and own[1] == own[0][:len(own[1]) - 1] + [f"{mark}out of memory"]:
            return True
    return False


def must_want(whole, runs):
    """Each run ends as with all memory, or out of memory, or reports less in addition to what it prints."""
    for number, run in enumerate(runs, 1):
        must(run == whole or wants(whole, run) or is_unexplained(whole, run) or is_untraced(whole, run), "growth", number, "another end", run)
    return len(runs)


def must_want_rows(whole, runs):
    """The program of rows: as with all memory, or an end out of memory, or a row that says so, after which the end that the rows test is in
    another state."""
    must(whole[0] == 0, "with all memory", whole)
    rows = whole[1].splitlines()
    for number, (status, output, errors) in enumerate(runs, 1):
        if status in (1, 4):
            must(output == "" and errors == "", "growth", number, "something is printed", output[:200])
            continue
        lines = output.splitlines()
        must(status == 0 and len(lines) == len(rows), "growth", number, "another end", status)
        has_wanted = False
        for line, row in zip(lines, rows):
            has_wanted = has_wanted or line != row and ("emory" in line or "WriteFailed" in line)
            must(line == row or has_wanted and line.split(" => ")[0] == row.split(" => ")[0], "growth", number, line, "not", row)
    return len(runs)


def growth_part(name, judge, runs_of):
    begin = time.monotonic()
    count = tried(f"growths of {name}", lambda: judge(*runs_of()))
    if count is not None:
        print(f"growths of {name}: {count} growths refused ({time.monotonic() - begin:.1f} s)", flush=True)
    return count is not None


def growths(portion):
    most = int(portion or ANY)
    with room() as folder:
        refusing = Refusing(folder)
        jobs = [(row.name, must_want, functools.partial(refusing.all_of, functools.partial(program_run, refusing, row), most))
                for row in program_rows().values() if is_alone(row)]
        jobs += [(name, must_want_rows, functools.partial(refusing.all_of_calls, text, most)) for name, text in part_runs()]
        with concurrent.futures.ThreadPoolExecutor(2) as pool:
            right = sum(pool.map(lambda job: growth_part(*job), jobs))
    return right, len(jobs) - right


PARTS = {
    "edits": edits,
    "events": events,
    "faults": lambda portion: check_faults(int(portion or 1)),
    "growths": growths,
    "kills": lambda portion: check_killed(int(portion or KILLS) // len(WINDOWS)),
    "lies": lambda portion: check_lying(int(portion or LIES) // len(WINDOWS)),
    "relayed": lambda portion: check_relayed(int(portion or CUTS)),
    "reviews": lambda portion: check_reviews(int(portion or REVIEWS), seed=3),
}


def main(names):
    unknown = [it for it in names if it.split("=")[0] not in PARTS]
    if unknown:
        print(f"no part: {' '.join(unknown)}, but {' '.join(PARTS)}")
        return 2
    passed = failed = 0
    for name in names or PARTS:
        part, _, portion = name.partition("=")
        begin = time.monotonic()
        right, wrong = PARTS[part](portion)
        print(f"{part}: {right} of {right + wrong} ({time.monotonic() - begin:.0f} s)", flush=True)
        passed, failed = passed + right, failed + wrong
    print(f"{passed} passed, {failed} failed")
    return 1 if failed else 0


sys.exit(main(sys.argv[1:]))
