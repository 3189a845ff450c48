"""A run, a service and a relay in memory: each effect of each of them fails in some way, or is the last; then the same call is made again.

The program `test_sessions` plays them (its head says how); here the plays are made, and what each leaves is judged, with what `killed.py` and
`faults.py` read of it. They are made from nothing, and after a run that was killed in the middle. Of what a killed run or service had not forced
to the device nothing is left, or some bytes, or all; of a relay all, since it forces its files at the end of a connection. After each call:

- what the run has shown as complete is in its record and in its features file, unless it said that it cannot write that;
- what its record has of a connection is a prefix of what a server did by its contacts file, and of what a relay reports, unless these say
  that they cannot be written; its connections are numbered from 1 on; and each act in its own file of contacts is one of its record;
- a service with status 0 has each contact that it prints in its file, and a relay reports nothing that such a service has not done;
- a status of 0 is that of a run that is Done, and all its files are those of one that nothing disturbed; any other comes with a line that begins
  with `dme: `, no such line comes twice, and no run waits for ever;
- the last call, which nothing disturbs, is Done, with each feature once and no complaint.

`run` calls this; by itself: tests/played.py [STEP], which makes each STEP-th play.
"""

import subprocess
import sys

from common import ROOT, each, holds, must
from faults import LABELS, acts, listed, shown
from killed import Record, by_connection

CRATE = ROOT / "crates" / "test_sessions"
PLAYER = CRATE / "out" / "test_sessions"
ENDS = {"direct": ("run", "serve"), "through": ("run", "serve", "watch")}
ALL = 1_000_000
WAYS = [("kill", 0), ("kill", 7), ("kill", ALL), ("short", 0), ("full", 9), ("unknown", 0), ("reset", 0), ("locked", 0), ("missing", 0),
        ("nothing", 0), ("end", 0)]
FILES = ("part.record", "part.features", "part.contacts")
STANDS = -1


class Call:
    """What a call of the three has left: of each its status, how many effects it had, what it said and printed; and the files."""

    def __init__(self):
        self.ends, self.files = {}, {}


class Source:
    """What the player writes: lines, and texts of a known length."""

    def __init__(self, text):
        self.bytes, self.at = text, 0

    def line(self):
        end = self.bytes.index(b"\n", self.at)
        line, self.at = self.bytes[self.at:end], end + 1
        return line.decode().split(" ")

    def text(self, length):
        text, self.at = self.bytes[self.at:self.at + length], self.at + length + 1
        return text.decode()

    def play(self):
        """The calls of a play."""
        calls = []
        for word, *fields in iter(self.line, ["played"]):
            if word == "round":
                calls.append(Call())
            elif word == "end":
                name, status, count, said, printed = fields
                calls[-1].ends[name] = (int(status), int(count), self.text(int(said)), self.text(int(printed)))
            else:
                calls[-1].files[fields[0]] = self.text(int(fields[1]))
        return calls


def played(rows):
    """The calls of each play."""
    head = (CRATE / "stdin").read_text().split("[plays]\n")[0] + "[plays]\n"
    done = subprocess.run([PLAYER], input=(head + "".join(f"{row}\n" for row in rows)).encode(), stdout=subprocess.PIPE, check=True)
    source = Source(done.stdout)
    for _ in rows:
        yield source.play()


def must_be_said(name, end):
    status, _, said, _ = end
    lines = [it for it in said.split("\n") if it.startswith("dme: ")]
    must(status <= 0 or lines, name, "says nothing, and ends with", status)
    must(len(set(lines)) == len(lines), name, "says twice", said)


def is_front(front, whole):
    return whole[: len(front)] == front


def must_be_kept(call, witnesses):
    """What a run has shown and reported, against its files and what the others have done in all calls until then."""
    said = call.ends["run"][2]
    record = Record(call.files.get("part.record", ""))
    done = [it[0] for it in record.features]
    if "cannot write part.record" not in said:
        must(set(shown(said)) <= set(done), "shown, and not in the record", shown(said), done)
    if "cannot write part.features" not in said:
        must(set(shown(said)) <= set(listed(call.files.get("part.features", ""))), "shown, and not in the features file", shown(said))
    told = by_connection((number, f"{word} {rest}".rstrip()) for number, word, rest in record.told)
    must(list(told) == list(range(1, len(told) + 1)), "connections", list(told))
    for name, texts in witnesses.items():
        for number, mine in told.items():
            must(any(it is None or is_front(mine, it) for it in texts), "reported, and not in", name, number, mine, texts)
    own = acts(call.files.get("part.contacts", ""))
    must(all(it in sum(told.values(), []) for it in own), "in its own contacts, and not reported", own, told)


def witnessed(call, name, end):
    """The acts of a file of another end; none if it could not be kept."""
    if f"cannot write {name}" in call.ends[end][2]:
        return None
    return [it for it in acts(call.files.get(name, "")) if not it.startswith("OTHER")]


def must_be_whole(call):
    """A service with status 0 has each contact that it prints in its file; a relay reports nothing that such a service has not done."""
    status, _, said, printed = call.ends["serve"]
    done = acts(call.files.get("server.contacts", ""))
    if status == 0:
        must(len([it for it in done if it.startswith("CONTACT")]) == printed.count("CONTACT"), "contacts of the service", done, printed)
    if call.ends["watch"][0] == 0 and status == 0:
        must(is_front([it for it in acts(call.files.get("told", "")) if not it.startswith("OTHER")], done), "told by the relay", done)


def must_be_done(call):
    status, _, said, printed = call.ends["run"]
    must(status == 0 and printed.startswith("STATE Done\n"), "made again, it ends with", status, said, printed)
    must("cannot" not in said and "fail" not in said, "made again, it complains", said)
    record = Record(call.files.get("part.record", ""))
    must(tuple(it[0] for it in record.features) == LABELS, "features", [it[0] for it in record.features])
    must(tuple(listed(call.files.get("part.features", ""))) == LABELS, "features file", call.files.get("part.features"))


def judge(calls, whole, is_through):
    witnesses = {"server.contacts": [], "told": []} if is_through else {"server.contacts": []}
    for call in calls:
        witnesses["server.contacts"].append(witnessed(call, "server.contacts", "serve"))
        if is_through:
            witnesses["told"].append(witnessed(call, "told", "watch"))
        for name, end in call.ends.items():
            must_be_said(name, end)
        must_be_kept(call, witnesses)
        must_be_whole(call)
        status, _, said, printed = call.ends["run"]
        must(status != STANDS, "it stands", said)
        must(status != 0 or printed.startswith("STATE Done\n"), "status 0", printed)
    if len(calls) == 2 and calls[0].ends["run"][0] == 0:
        for name in FILES:
            must(calls[0].files.get(name) == whole.files.get(name), "another", name, calls[0].files.get(name))
    must_be_done(calls[-1])


def rows_of(way, before):
    """Each disturbance of a call after those of `before`, which are brought to an end by one that nothing disturbs."""
    whole = next(played([f"{way} {';'.join((*before, 'run 0 kill 0'))}"]))[len(before)]
    must(all(whole.ends[name][0] == 0 for name in ENDS[way]), "undisturbed", whole.ends)
    parts = [f"{name} {at} {how} {left}" for name in ENDS[way] for at in range(1, whole.ends[name][1] + 1) for how, left in WAYS
             if name != "watch" or how != "kill" or left == ALL]
    return whole, [f"{way} {';'.join((*before, part))}" for part in parts]


def check_all(step):
    """How many plays there are, and how many of them leave something else than they are to leave."""
    count = wrong = 0
    for way in ENDS:
        for before in ((), ("run 70 kill 3",)):
            whole, rows = rows_of(way, before)
            for row, calls in zip(rows[::step], played(rows[::step])):
                count += 1
                wrong += not holds(f"played: {row}", judge, calls, whole, way == "through")
    return count, wrong


def check_played(step=1):
    return each("effects in memory that fail, or are the last", check_all, step)


if __name__ == "__main__":
    sys.exit(check_played(int(sys.argv[1]) if sys.argv[1:] else 1)[1])
