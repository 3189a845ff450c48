"""Worlds that are stopped anywhere, and worlds of many events, over the proved code of both ends (the program `test_calls`).

Three schedules of single events, for windows of 1, 4 and 16, bring a program of five features to Done, through breaks, aborts and restarts.
After each prefix of each, a world is stopped in every way: either side leaves, or is restarted, with each count of the features that are held;
an abort is sent, and another connection is made or the plan is started again; and for each byte in transit, only the bytes up to it move, are
read and processed or are not, and either side leaves. Then both leave, the client makes a connection, the server takes it, and nothing
disturbs them any more. Each such world must end Done, the features that were held before must be the first of those at the end, and the audit
of both ends' files must answer RUNS. If nothing is done between the stop and the new connection, the whole end is computed here: labels,
origins, points by the number of each contact, counted acts, contacts. Otherwise each point is that of its touch and the shift of its contact's
number. For some prefixes, `dme simulate` plays one of these worlds too. Worlds of three examples (a broken connection, an abort of open
commands, an abort between two frames) are also stopped at each event, by restarts of both sides; the whole end is computed.

A world of 100,000 events of a fixed linear congruence, about one in nine of which can happen when it comes, is audited after each thousandth in
the program, and at ten places by `dme audit`.

These wrong results were tried on what `test_calls` wrote of a short schedule and of 3,000 events, and are refused: shifts in another order and
a point of another shift (`other points`), an end that is not Done (`not Done`), a verdict with a run less (`another verdict`), and a restart of
the client that is expected to keep all features (`are not kept`).

`run` calls this; by itself: tests/stopped.py [EVENTS], which then only plays a world of that many events, audited after each thousandth in the
program and at ten places by `dme audit`, and prints how many of each event happened.
"""

import collections
import concurrent.futures
import functools
import subprocess
import sys
import time

from common import CALLS, CONTACTS, counted, length, must, ran, tried
from hostile import Fixed

MOST_SECONDS = 600
ALSO_PLAYED = 1  # `dme` also plays a world for one in this many prefixes
EVENTS = 100_000
DISTURBED, RESTARTED = 300, 400  # in a world of many events, one row in this many disturbs, and one in this many restarts the client

TEXT = """\
DMISMN/'STOPPED',05.2
SNSLCT/S(P1)
MEAS/POINT,F(A),1
GOTO/10,20,30
PTMEAS/CART,10,20,25,0,0,1
ENDMES
MEAS/LINE,F(B),2
PTMEAS/CART,1,0,0,-1,0,0
PTMEAS/CART,0,1,0,0,-1,0
ENDMES
SNSLCT/S(P2)
RECALL/D(PART)
MEAS/CIRCLE,F(C),3
PTMEAS/CART,-1,0,0,1,0,0
GOTO/-2,0,5
PTMEAS/CART,-2,0,0,1,0,0
PTMEAS/CART,-3,0,0,1,0,0
ENDMES
MEAS/POINT,F(D),1
PTMEAS/CART,7,8,9,0,1,0
ENDMES
MEAS/LINE,F(E),2
PTMEAS/CART,4,5,6,0,0,1
PTMEAS/CART,4,5,6,0,0,1
ENDMES
ENDFIL
"""
SETUP = """\
TOOL P1
TOOL P2
FRAME PART 100 0 0
SHIFT 0.002 0 0
SHIFT 0 0 0.004
SHIFT -0.001 0.001 0
"""
# The meaning of both: shifts and targets in micrometres, the frame of each feature's last touch, and how many acts its block adds to the count:
# contacts, moves, and the tool and the frame that are selected before it, unless a plan begins there.
SHIFTS = [(2, 0, 0), (0, 0, 4), (-1, 1, 0)]
MACHINE, PART = "M", "P 100.000 0.000 0.000"
Block = collections.namedtuple("Block", "label frame targets moves changes")
BLOCKS = (
    Block("A", MACHINE, ((10, 20, 25),), 1, 1),
    Block("B", MACHINE, ((1, 0, 0), (0, 1, 0)), 0, 0),
    Block("C", PART, ((-1, 0, 0), (-2, 0, 0), (-3, 0, 0)), 1, 2),
    Block("D", PART, ((7, 8, 9),), 0, 0),
    Block("E", PART, ((4, 5, 6), (4, 5, 6)), 0, 0),
)
FILE_HEAD = "DME-FEATURES 2"


# ---- what features must be

@functools.cache
def points_of(block, phase):
    """The points of a feature whose first contact has a number with this remainder modulo three."""
    return tuple(" ".join(length(1000 * at + by) for at, by in zip(target, SHIFTS[(phase + touch) % 3]))
                 for touch, target in enumerate(block.targets))


Feature = collections.namedtuple("Feature", "label count connection frame points")


@functools.cache
def features_of(text):
    """The features of a features file, whose lines end with `;`."""
    lines = text.split(";")
    must(lines[0] == FILE_HEAD and lines[-1] == "", "no features file", text)
    features, at = [], 1
    while at < len(lines) - 1:
        head, label, count, connection, frame = lines[at].split(" ", 4)
        end = at + 1 + int(count)
        must(head == "FEATURE" and lines[end] == "END", "no features file", text)
        features.append(Feature(label, int(count), int(connection), frame, tuple(lines[at + 1:end])))
        at = end + 1
    return tuple(features)


@functools.cache
def measured(kept, number, connection, blocks=BLOCKS):
    """The features that are held if these were kept, and the others are measured in a run from this contact on, on this connection."""
    features = list(kept)
    for block in blocks[len(kept):]:
        features.append(Feature(block.label, len(block.targets), connection, block.frame, points_of(block, number % 3)))
        number += len(block.targets)
    return tuple(features), number


def counted_acts(kept):
    """How many acts a plan after that many features counts, if the machine is homed already: what is reported to it, the tool and the frame with
    which it begins, and what its statements do."""
    left = BLOCKS[kept:]
    acts = 1 + 1 + (kept > 0) + sum(len(it.targets) + it.moves + it.changes for it in left)
    return acts


Row = collections.namedtuple("Row", "state counted contacts verdict features")


def row_of(text):
    state, counted, contacts, verdict, features = text.split("|")
    return Row(state, int(counted), int(contacts), verdict, features_of(features))


@functools.cache
def must_be_sound(row, blocks=BLOCKS):
    """The features are the first of the program, from ascending runs of contacts that do not overlap, and each point is that of its touch."""
    word, *starts = row.verdict.split()
    must(word == "RUNS" and len(starts) == len(row.features) <= len(blocks), "another verdict", row)
    free = 0
    for block, feature, start in zip(blocks, row.features, map(int, starts)):
        must(start >= free, "runs meet", row)
        free = start + feature.count
        must((feature.label, feature.count, feature.frame) == (block.label, len(block.targets), block.frame), "another feature", row)
        must(feature.points == points_of(block, start % 3), "other points", row)
    must(free <= row.contacts, "more than was done", row)


# ---- events by a linear congruence

COMMON = (["clientsends"] * 3 + ["serverreads"] * 3 + ["serverturn"] * 2 + ["machine auto"] * 2 + ["clientreads"] * 4 + ["connect", "accept", "resume"]
          + ["up all"] * 3 + ["up 5", "up 30", "up 70"] + ["down all"] * 3 + ["down 1", "down 11", "down 25"])
ENDS_BADLY = ["machine missed", "machine fault"]  # outcomes of what runs, if anything runs; mostly nothing runs
LEAVES = ["clientleaves", "serverleaves", "clientrestart", "serverrestart"]


class Events:
    """Rows of events. After a break, either side is likely to leave as well, so that they connect again."""

    def __init__(self, seed, one_of, restarts=0):
        self.fixed = Fixed(seed)
        self.one_of = one_of  # one row in this many disturbs
        self.restarts = restarts  # and one in this many is a restart of the client, which restarts what is Done
        self.unsettled = 0

    def restart(self):
        self.unsettled = 20
        return f"clientrestart {self.fixed.below(len(BLOCKS) + 1)}"

    def next(self):
        if self.restarts and self.fixed.below(self.restarts) == 0:
            return self.restart()
        self.unsettled -= 1
        if self.unsettled > 0 and self.fixed.below(8) == 0:
            return self.fixed.one_of(["clientleaves", "serverleaves"])
        if self.fixed.below(self.one_of) > 0:
            return self.fixed.one_of(COMMON)
        row = self.fixed.one_of(ENDS_BADLY * 4 + ["abort"] + LEAVES)
        if row == "clientrestart":
            return self.restart()
        if row in LEAVES:
            self.unsettled = 20
        return row

    def rows(self, count):
        return [self.next() for _ in range(count)]


def told_by_calls(parts):
    """What the last of these parts writes. Its worlds use the program, the ways and the ending of this name."""
    whole = {"program STOPPED": TEXT, "setup": SETUP, **parts}
    text = "".join(f"[{head}]\n{part}" for head, part in whole.items())
    done = subprocess.run([str(CALLS)], input=text, capture_output=True, text=True, timeout=MOST_SECONDS)
    must(done.returncode == 0 and done.stderr == "", "test_calls", done.returncode, done.stderr)
    before, _, told = done.stdout.partition(f"[{list(whole)[-1]}]\n")
    must(before == "".join(f"[{head}]\n{part}" for head, part in list(whole.items())[:-1]), "other parts", before)
    return told


# ---- schedules

SEEDS = {1: (1, 300), 4: (2, 250), 16: (3, 150)}
ROWS = 20_000
LEAST = 200


def events_of_rows(rows, window, text=TEXT):
    """Those of these events that happen, up to Done if they lead there."""
    told = told_by_calls({"program STOPPED": text, f"plays STOPPED {window}": "".join(f"{it}\nshow\n" for it in rows)}).splitlines()
    events, connections = [], 0
    for row, line in zip(rows, told):
        happened, state, _ = line.split("|", 2)
        if happened == "1":
            connections += row == "connect"
            events.append(f"accept {connections}" if row == "accept" else row)
        if state == "Done":
            break
    return events


ON = "serverreads all;" + "serverturn;machine auto;" * 17 + "clientreads all;"
# A way, whether the whole end is known, and the name under which its worlds are counted.
WAYS = [
    ("once serverrestart;", True, "restart of the server"),
    ("features clientrestart *;", True, "restart of the client"),
    ("once clientleaves;", True, "leave"),
    ("once serverleaves;", True, "leave"),
    ("once abort;", True, "abort"),
    ("once abort;quiet;resume;quiet;", False, "abort"),
    ("once clientleaves;quiet;", False, "leave"),
    ("once serverleaves;quiet;", False, "leave"),
    ("up up *;clientleaves;", True, "byte"),
    ("up up *;serverleaves;", True, "byte"),
    ("down down *;clientleaves;", True, "byte"),
    ("down down *;serverleaves;", True, "byte"),
    (f"up up *;clientleaves;{ON}", False, "byte"),
    (f"up up *;{ON}serverleaves;", False, "byte"),
    (f"down down *;serverleaves;{ON}", False, "byte"),
]


def ending(connections):
    """Both leave and connect again. The last connection is the first of these that can be taken."""
    return "clientleaves;serverleaves;connect;" + "".join(f"accept {it};" for it in range(connections + 1, 0, -1)) + "quiet;"


def must_end(front, way, number, row, connection):
    """A world that was stopped after a prefix, and brought to its end on this connection if the client was not Done."""
    kept = front.features[:number] if WAYS[way][0].startswith("features") else front.features
    must(row.state == "Done" and len(row.features) == len(BLOCKS), "not Done", row)
    must(row.features[:len(kept)] == kept, "features are not kept", front, row)
    must_be_sound(row)
    if not WAYS[way][1]:
        return
    if front.state == "Done" and kept == front.features and not WAYS[way][0].startswith("features"):
        must(row == front, "changed", front, row)
        return
    features, contacts = measured(kept, front.contacts, connection)
    must(row.features == features and row.contacts == contacts, "another end", front, row)
    homing = row.counted - counted_acts(len(kept))
    must(homing == 1 if way == 0 else homing in (0, 1), "counted", row)


def must_be_audited(row, files):
    """The features of these files are those of the row, and `dme audit` reports the same verdict on them as the program."""
    features, head, contacts = files.partition(CONTACTS)
    must(features_of(features.replace("\n", ";")) == row.features, "other files", features)
    status, verdict, error = ran("audit --setup s --features f --contacts c p", s=SETUP, f=features, c=head + contacts, p=TEXT)
    must((status, verdict) == (0, row.verdict + "\n"), "another verdict", status, verdict, row)
    must(all(it.startswith("dme: SHA-256 of ") for it in error.splitlines()), "other lines", error)


def must_be_played(window, events, way, number, row, ending):
    """Likewise by `dme simulate`."""
    stop = WAYS[way][0].split(" ", 1)[1].replace("*", str(number))
    text = "".join(it + "\n" for it in events) + (stop + ending).replace(";", "\n")
    status, report, _ = ran(f"simulate --setup s --schedule q --window {window} p", s=SETUP, q=text, p=TEXT)
    lines = report.splitlines()
    shown = [f"STATE {row.state}", f"COUNTED {row.counted}"]
    for feature in row.features:
        shown += [f"FEATURE {feature.label}", *feature.points]
    must(status == 0 and lines[:len(shown)] == shown, "another report", report, row)
    must_be_runs(row, [it.split() for it in lines[len(shown):]])


def must_be_runs(row, made):
    """The contacts of a report, each with its number and its connection: from each start on they are those of the feature, on one connection."""
    must(len(made) == row.contacts and all(it[:2] == ["CONTACT", str(at)] for at, it in enumerate(made)), "other contacts", made)
    for feature, start in zip(row.features, map(int, row.verdict.split()[1:])):
        run = made[start:start + feature.count]
        must(tuple(" ".join(it[3:]) for it in run) == feature.points and len({it[2] for it in run}) == 1, "no run", feature, run)


def events_of(events, word):
    return sum(it.split()[0] == word for it in events)


def stopped_worlds(window):
    """How long a schedule is, and how many worlds of each kind were stopped after its prefixes, as a text. None of them is wrong."""
    events = events_of_rows(Events(*SEEDS[window]).rows(ROWS), window)
    must(len(events) >= LEAST, "few events", len(events))
    told = told_by_calls({"ways STOPPED": "".join(it + "\n" for it, _, _ in WAYS), "ending STOPPED": ending(events_of(events, "connect")),
                               f"stops STOPPED {window}": "".join(it + "\n" for it in events)})
    counts, fronts = collections.Counter(), []
    for line in told.splitlines():
        name, _, shown = line.partition("|")
        row = row_of(shown)
        if name == "front":
            must_be_sound(row)
            connection = events_of(events[:len(fronts)], "connect") + 1
            fronts.append((row, []))
            continue
        way, number = map(int, name.split())
        front, ends = fronts[-1]
        must_end(front, way, number, row, connection)
        counts[WAYS[way][2]] += 1
        ends.append((way, number, row))
    must(len(fronts) == len(events) + 1 and fronts[-1][0].state == "Done", "fronts", len(fronts))
    for at in range(0, len(fronts), ALSO_PLAYED):
        ends = fronts[at][1]
        must_be_played(window, events[:at], *ends[at * 7 % len(ends)], ending(events_of(events, "connect")))
    worlds = ", ".join(f"{count} by {name}" for name, count in counts.items())
    return f"{len(events)} events, {sum(counts.values())} worlds: {worlds}"


# ---- examples

THREE = """\
DMISMN/'THREE',05.2
SNSLCT/S(P1)
MEAS/CIRCLE,F(C),3
PTMEAS/CART,1,0,0,-1,0,0
PTMEAS/CART,0,1,0,0,-1,0
PTMEAS/CART,-1,0,0,1,0,0
ENDMES
ENDFIL
"""
FRAMES = """\
DMISMN/'FRAMES',05.2
SNSLCT/S(P1)
MEAS/POINT,F(A),1
PTMEAS/CART,10,0,0,0,0,1
ENDMES
MEAS/LINE,F(B),2
PTMEAS/CART,20,0,0,0,0,1
RECALL/D(PART)
PTMEAS/CART,30,0,0,0,0,1
ENDMES
ENDFIL
"""
CIRCLE = (Block("C", MACHINE, ((1, 0, 0), (0, 1, 0), (-1, 0, 0)), 0, 1),)
POINT_AND_LINE = (Block("A", MACHINE, ((10, 0, 0),), 0, 1), Block("B", PART, ((20, 0, 0), (30, 0, 0)), 0, 1))
# What single events do together.
READ_ALL, GIVE_ALL = ["serverreads"] * 9, ["down all"] + ["clientreads"] * 30
QUIET = ["clientsends"] * 4 + ["up all"] + READ_ALL + ["serverturn", "machine auto"] * 9 + GIVE_ALL
TURN = ["clientsends", "up all", "serverreads", "serverturn"]
# A broken connection, an abort among several open commands, and one between two frames: the program and its blocks, the window, events, some of
# which happen, the state that they lead to, and how many acts are counted there.
Worked = collections.namedtuple("Worked", "name text blocks window rows state counted")
WORKED = [
    Worked("a broken connection", THREE, CIRCLE, 1,
           ["connect", "accept"] + QUIET * 7 + TURN + ["machine auto", "down 47"] + ["clientreads"] * 9
           + ["clientleaves", "serverleaves", "connect", "accept"] + QUIET * 20, "Done", 6),
    Worked("an abort of three open commands", THREE, CIRCLE, 3,
           ["connect", "accept"] + QUIET * 3 + ["clientsends"] * 3 + ["up all"] + READ_ALL
           + ["serverturn", "abort", "up all", "serverreads"] + GIVE_ALL, "Halted", 3),
    Worked("an abort between two frames", FRAMES, POINT_AND_LINE, 1,
           ["connect", "accept"] + QUIET * 11 + TURN + ["abort", "up all", "serverreads"] + GIVE_ALL + ["resume"] + QUIET * 20, "Done", 13),
]
RESTARTS = "once clientrestart 0;serverrestart;"


def stopped_row(worked):
    """A world stopped at each event of an example by restarts of both sides, which then continues: all is measured again, on a new connection."""
    events = events_of_rows(worked.rows, worked.window, worked.text)
    accepts = [f"accept {it};" for it in range(events_of(events, "connect") + 1, 0, -1)]
    told = told_by_calls({"program STOPPED": worked.text, "ways STOPPED": RESTARTS + "\n", "ending STOPPED": "".join(["connect;", *accepts, "quiet;"]),
                               f"stops STOPPED {worked.window}": "".join(it + "\n" for it in events)})
    lines = [line.partition("|") for line in told.splitlines()]
    must([it[0] for it in lines] == ["front", "0 0"] * (len(events) + 1), "fronts", lines)
    rows = [row_of(it[2]) for it in lines]
    must((rows[-2].state, rows[-2].counted) == (worked.state, worked.counted), "led elsewhere", rows[-2])
    for at, (front, end) in enumerate(zip(rows[::2], rows[1::2])):
        must_be_sound(front, worked.blocks)
        must_be_sound(end, worked.blocks)
        connection = events_of(events[:at], "connect") + 1
        must((end.state, end.features, end.contacts) == ("Done", *measured((), front.contacts, connection, worked.blocks)), "another end", front, end)
    return f"{len(events)} events, {len(rows) // 2} worlds"


# ---- a world of many events

def must_be_kept(before, restarts, row):
    """Only a restart of the client drops features."""
    kept = before[:min([len(before), *restarts])]
    must(row.features[:len(kept)] == kept, "features are not kept", before, restarts, row)


class Many:
    """The results of a world of many events."""

    def __init__(self, count, window, seed):
        self.count, self.happened, self.wanted = count, collections.Counter(), collections.Counter()
        self.done, self.features, self.audits, self.row = 0, 0, 0, None
        self.rows = Events(seed, DISTURBED, RESTARTED).rows(count)
        self.files_at = max(count // 10, 1000)
        self.judge(told_by_calls({f"plays STOPPED {window}": "".join(map(self.asked, range(count)))}))

    def asked(self, at):
        ends = at + 1
        return self.rows[at] + "\n" + "show\n" * (ends % 1000 == 0) + "files\n" * (ends % self.files_at == 0)

    def judge(self, told):
        held, files = (), []
        lines = told.splitlines()
        at = line_at = 0
        while at < self.count:
            flags, _, shown = lines[line_at].partition("|")
            line_at += 1
            must(len(flags) == 1000 and set(flags) <= {"0", "1"}, "flags", flags)
            restarts = self.count_events(self.rows[at:at + 1000], flags)
            at += 1000
            self.row = row_of(shown)
            must_be_sound(self.row)
            must_be_kept(held, restarts, self.row)
            held = self.row.features
            self.done += self.row.state == "Done"
            self.features += len(held)
            self.audits += 1
            if at % self.files_at == 0:
                end = line_at + 1
                while end < len(lines) and "|" not in lines[end]:
                    end += 1
                must_be_audited(self.row, "\n".join(lines[line_at + 1:end]) + "\n")
                line_at = end
        must(line_at == len(lines), "more lines", lines[line_at:][:3])

    def count_events(self, rows, flags):
        """Counts the events that happened. Answers with how many features each restart of the client began."""
        restarts = []
        for row, flag in zip(rows, flags):
            name = row.rstrip("0123456789 ")
            self.wanted[name] += 1
            self.happened[name] += flag == "1"
            if flag == "1" and name == "clientrestart":
                restarts.append(int(row.split()[1]))
            must(flag == "1" or row not in ("serverrestart", "clientrestart 0"), "a restart could not happen")
        return restarts

    def told(self):
        return (f"{sum(self.happened.values())} of {self.count} events happened, {self.row.contacts} contacts, {self.audits} audits, "
                f"{self.features} features in them, {self.done} of them Done")


# ---- everything

def many(count):
    world = Many(count, 4, 7)
    if count > EVENTS:
        for name in sorted(world.wanted):
            print(f"  {name}: {world.happened[name]} of {world.wanted[name]}")
    return world.told()


def is_right(name, call):
    """Prints what it reported, and how long it took."""
    begin = time.monotonic()
    told = tried(name, call)
    if told is not None:
        print(f"{name}: {told} ({time.monotonic() - begin:.1f} s)", flush=True)
    return told is not None


def check_stopped():
    calls = [(f"worlds stopped with a window of {window}", functools.partial(stopped_worlds, window)) for window in SEEDS]
    calls += [(f"worlds stopped at {worked.name}", functools.partial(stopped_row, worked)) for worked in WORKED]
    calls.append(("a world of many events", functools.partial(many, EVENTS)))
    with concurrent.futures.ProcessPoolExecutor(2) as pool:
        right = sum(pool.map(is_right, *zip(*calls)))
    return counted("stopped worlds", len(calls) - right, len(calls))


if __name__ == "__main__":
    if sys.argv[1:]:
        sys.exit(0 if is_right("a world of many events", functools.partial(many, int(sys.argv[1]))) else 1)
    sys.exit(1 if check_stopped()[1] else 0)
