"""Each call that a run, a service or a relay makes of the system for its files and its connection fails once, or is the last: the program is killed.

A short program is run with a record, a features file, a file of contacts and a log; then again with the first of these calls made to fail
(`strace` answers an error in its place), then the second, up to the last; likewise the service that it drives, and a relay between them. Then:

- what the run has shown as complete is in its record and in its features file, as `killed.py` reads them, and what was reported by the
  record is a prefix of what the server did by its contacts file;
- each act that was reported is in the contacts file of the server, and in the told file of the relay;
- a status of 0 is that of a run that is Done, and nothing then differs from a run that nothing disturbs; any other comes with a line that begins
  with `dme: `, and with no line twice;
- the same call, made again, comes to its end: each feature once, and its audit over the server's contacts answers RUNS.

`releases.py` calls this; by itself: tests/faults.py [STEP], which takes each STEP-th call.
"""

import os
import re
import signal
import subprocess
import sys

from common import PROGRAM, SECONDS, begun, each, ended, holds, listening, must, must_have_runs, room, run_words, text_of
from killed import Record

STEP = 11
LABELS = ("A", "B", "C")
SETUP = "TOOL P1\nFRAME PART 100 50 10\nSHIFT 0.002 0 0\n"
# The calls that are disturbed, and how each of them fails.
ERRORS = {
    "openat": ("EACCES", "EMFILE"), "flock": ("EAGAIN", "EIO"), "read": ("EIO",), "write": ("ENOSPC", "EIO"), "fdatasync": ("EIO",),
    "fsync": ("EIO",), "rename": ("ENOSPC",), "unlink": ("EACCES",), "ftruncate": ("EIO",), "lseek": ("EIO",), "statx": ("EIO",),
    "fstat": ("EIO",), "lstat": ("EIO",), "stat": ("EIO",), "newfstatat": ("EIO",), "readlink": ("EIO",), "fchmod": ("EACCES",), "socket": ("EMFILE",),
    "connect": ("ECONNREFUSED", "ETIMEDOUT"), "bind": ("EADDRINUSE",), "listen": ("EADDRINUSE",), "accept4": ("ECONNABORTED",),
    "sendto": ("EPIPE", "ECONNRESET"), "recvfrom": ("ECONNRESET",), "setsockopt": ("EINVAL",), "shutdown": ("ENOTCONN",),
}
KILL = "signal=KILL"
FILES_OF_RUN = ("--record", "part.record", "--part", "0042/7", "--features", "part.features", "--contacts", "part.contacts", "--log", "part.log")
FILES = ("part.record", "part.features", "part.contacts", "part.log", "server.contacts", "told", "1.up", "1.down")


def program():
    lines = ["DMISMN/'FAULTS',05.2", "UNITS/MM", "SNSLCT/S(P1)", "RECALL/D(PART)"]
    for number, label in enumerate(LABELS):
        lines += [f"MEAS/POINT,F({label}),2", f"PTMEAS/CART,{number},0,0,0,0,1", f"PTMEAS/CART,{number},1,0,0,0,1", "ENDMES"]
    return "\n".join([*lines, "ENDFIL"]) + "\n"


def part():
    return room({"machine.setup": SETUP, "part.dmis": program()})


class Three:
    """A run, a service and perhaps a relay that meet in a folder; one of them, by its name, under `strace` with these options."""

    def __init__(self, folder, disturbed, options, through=False):
        self.folder, self.disturbed, self.options, self.through = folder, disturbed, options, through

    def how(self, name):
        """What comes before the words of one of them, which is in a group of its own, since `strace` leaves what it follows alone when it is ended."""
        return ("strace", "-o", "calls", *self.options) if name == self.disturbed else ()

    def whole(self):
        """What each of them ends with: its status, standard output and standard error."""
        words = ("serve", "--setup", "machine.setup", "--contacts", "server.contacts", "--port", "PORT")
        server, port = listening(self.folder, *words, before=self.how("server"), start_new_session=True)
        ends = {"server": server}
        if self.through:
            words = ("watch", "--host", "127.0.0.1", "--port", str(port), "--told", "told", "--record-bytes", ".", "--connections", "1", "--listen", "PORT")
            ends["relay"], port = listening(self.folder, *words, before=self.how("relay"), start_new_session=True)
        words = run_words(port, *FILES_OF_RUN, "--progress", "--timeout", "2" if self.disturbed else str(SECONDS))
        results = {"run": ended(begun(self.folder, *self.how("run"), str(PROGRAM), *words, start_new_session=True))}
        for name, process in ends.items():
            try:
                results[name] = ended(process, seconds=0.3 if results["run"][0] else SECONDS)
            except subprocess.TimeoutExpired:
                os.killpg(process.pid, signal.SIGKILL)
                process.communicate()
                results[name] = (0, "", "")
        return results


def read(folder, name):
    return text_of(folder / name)


def shown(error):
    """The features that a run has shown as complete."""
    return re.findall(r"(?m)^feature \d+ of \d+: (\w+)$", error)


def listed(text):
    """The whole features of a features file."""
    return [label for label, count in re.findall(r"(?ms)^FEATURE (\w+) (\d+) [^\n]*\n(?:[^\n]*\n)*?END\n", text)]


def acts(text, number=None):
    """The acts of a file of contacts, each without the number of its connection, of one connection or of all."""
    lines = [it.split(" ", 1) for it in text.split("\n")[1:-1]]
    return [rest for found, rest in lines if number in (None, found)]


def must_be_kept(folder, error):
    """The acts that were reported; what was shown as complete is in the files that could be written."""
    record = Record(read(folder, "part.record"))
    done = [it[0] for it in record.features]
    if (folder / "part.record").exists() and "cannot write part.record" not in error:
        must(done[: len(shown(error))] == shown(error), "shown, and not in the record", shown(error), done)
    if (folder / "part.features").exists() and "cannot write part.features" not in error:
        must(set(shown(error)) <= set(listed(read(folder, "part.features"))), "shown, and not in the features file", shown(error))
    return [f"{word} {rest}".rstrip() for _, word, rest in record.told]


def must_be_front(front, whole, name):
    must(whole[: len(front)] == front, "reported, and not in", name, len(front), len(whole))


def must_be_said(result, who):
    status, out, error = result
    if status < 0:
        return
    lines = [it for it in error.split("\n") if it.startswith("dme: ")]
    must(status == 0 or lines, who, "says nothing, and ends with", status)
    must(len(set(lines)) == len(lines), who, "says twice", error)


def must_come_to_its_end(folder, was):
    """The same run, made again over a service of its own, is Done, with each feature once, from the contacts of both."""
    (folder / "server.contacts").unlink(missing_ok=True)
    results = Three(folder, "", ()).whole()
    status, out, error = results["run"]
    must(status == 0 and (out.startswith("STATE Done\n")), "made again, it ends with", status, out, error, "after", was)
    record = Record(read(folder, "part.record"))
    must(tuple(it[0] for it in record.features) == LABELS, "features", [it[0] for it in record.features])
    must(tuple(listed(read(folder, "part.features"))) == LABELS, "features file", read(folder, "part.features"))
    (folder / "all.contacts").write_text(record.contacts_text())
    must_have_runs(folder, len(LABELS), "--features", "part.features", "--contacts", "all.contacts")


def disturb(folder, who, call, path, number, fault):
    """One call of one of them is disturbed."""
    named = ("-P", path) if path else ()
    options = (*named, "-e", f"trace={call}", "-e", f"inject={call}:{fault}:when={number}")
    results = Three(folder, who, options, who == "relay").whole()
    told = must_be_kept(folder, results["run"][2])
    must_be_front(told, acts(read(folder, "server.contacts")), "the server's contacts")
    if who == "relay" and results["relay"][0] == 0 and not results["relay"][2]:
        must_be_front(told, acts(read(folder, "told")), "the told file")
    for name, result in results.items():
        must_be_said(result, name)
    status, out, _ = results["run"]
    must(status != 0 or out.startswith("STATE Done\n"), "status 0", out)
    must_come_to_its_end(folder, results)


def calls_of(who):
    """The calls of one of them for its files and its connection, in a run that nothing disturbs: each with its file, or none, and its number."""
    with part() as folder:
        results = Three(folder, who, ("-y", "-e", "trace=" + ",".join(ERRORS)), who == "relay").whole()
        must(all(it[0] == 0 for it in results.values()), "undisturbed", results)
        lines = (folder / "calls").read_text().split("\n")
    counts, found = {}, []
    for line in lines:
        call = line.split("(", 1)[0]
        path = next((it for it in FILES if re.search(rf'[/"<]{re.escape(it)}(\.new)?[">]', line)), None)
        is_net = "<TCP" in line or "<socket:" in line or call in ("socket", "connect", "bind", "listen", "accept4")
        if call not in ERRORS or path is None and not is_net:
            continue
        counts[call, path] = counts.get((call, path), 0) + 1
        found.append((call, path, counts[call, path]))
    return found


def check_all(step):
    """How many disturbances there are, and how many of them leave something as it is not to be."""
    count = wrong = 0
    for who in ("run", "server", "relay"):
        faults = [(*it, fault) for it in calls_of(who) for fault in (*(f"error={e}" for e in ERRORS[it[0]]), KILL)]
        for call, path, number, fault in faults[::step]:
            count += 1
            with part() as folder:
                name = f"faults: {who}: {call} of {path or 'a socket'}, number {number}, {fault}"
                wrong += not holds(name, disturb, folder, who, call, path, number, fault)
    return count, wrong


def check_faults(step=STEP):
    return each("calls of the system that fail, or are the last", check_all, step)


if __name__ == "__main__":
    sys.exit(check_faults(int(sys.argv[1]) if sys.argv[1:] else STEP)[1])
