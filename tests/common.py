"""What the checks of this folder share: where things are, how a `dme` is called, how a fault is raised, and how cases are counted.

A function `check_..` prints how many of its cases are as they have to be, and answers how many are and how many are not.
"""

import contextlib
import pathlib
import resource
import signal
import socket
import struct
import subprocess
import tempfile

from listening import free_port, wait_for_listener

TESTS = pathlib.Path(__file__).resolve().parent
ROOT = TESTS.parent
EXAMPLES = ROOT / "examples"
PROGRAM = ROOT / "crates" / "dme_program" / "out" / "dme_program"
CALLS = ROOT / "crates" / "test_calls" / "out" / "test_calls"
ROWS_OF_CALLS = ROOT / "crates" / "test_calls" / "stdin"
SECONDS = 60
CONTACTS, TOLD = "DME-CONTACTS 1\n", "DME-TOLD 1\n"


class Wrong(Exception):
    """Something is not as it has to be."""


# The last is what a reader of XML raises.
FAULTS = (Wrong, OSError, subprocess.SubprocessError, LookupError, ValueError, StopIteration, SyntaxError)


def must(is_so, *told):
    if not is_so:
        raise Wrong(" ".join(map(repr, told)))


# ---- files


def write_into(folder, texts):
    for name, text in texts.items():
        (folder / name).write_text(text)


@contextlib.contextmanager
def room(texts=()):
    """A new folder with these files, which is removed afterwards."""
    with tempfile.TemporaryDirectory() as name:
        folder = pathlib.Path(name)
        write_into(folder, dict(texts))
        yield folder


def text_of(file):
    """A file's text; an empty one if there is no such file."""
    return file.read_text() if file.exists() else ""


def parts_of(text):
    """The parts of a text of rows of calls, each of which begins with a line in brackets."""
    parts = []
    for line in text.splitlines(keepends=True):
        if line.startswith("["):
            parts.append("")
        parts[-1] += line
    return parts


def parts_of_calls(*heads):
    """Those parts of the rows of `test_calls` that begin so, as one text."""
    return "".join(part for part in parts_of(ROWS_OF_CALLS.read_text()) if part.startswith(heads))


def length(micrometres):
    """A length in millimetres, with three decimals."""
    return f"{'-' if micrometres < 0 else ''}{abs(micrometres) // 1000}.{abs(micrometres) % 1000:03}"


# ---- calls of `dme`


def begun(folder, *words, **more):
    """A process with a pipe for what it prints and for what it says."""
    return subprocess.Popen(words, cwd=folder, stdout=subprocess.PIPE, stderr=subprocess.PIPE, text=True, **more)


def dme(folder, *words, **more):
    return begun(folder, str(PROGRAM), *words, **more)


def ended(process, text=None, seconds=SECONDS):
    """Its status, standard output and standard error."""
    out, error = process.communicate(text, timeout=seconds)
    return process.returncode, out, error


def killed(process):
    process.kill()
    process.communicate()


def called(folder, *words, text=None):
    """Status, standard output and standard error of a `dme` that reads this text."""
    process = dme(folder, *words, stdin=subprocess.DEVNULL if text is None else subprocess.PIPE)
    try:
        return ended(process, text)
    finally:
        if process.returncode is None:
            killed(process)


def ran(words, **texts):
    """Likewise of one in a folder with these files."""
    with room(texts) as folder:
        return called(folder, *words.split())


def run_words(port, *more, program="part.dmis"):
    return ("run", "--setup", "machine.setup", "--host", "127.0.0.1", "--port", str(port), *more, program)


def audited(folder, *files, program="part.dmis"):
    """How an audit of these files ends."""
    return called(folder, "audit", "--setup", "machine.setup", *files, program)


def must_have_runs(folder, count, *files):
    """The audit of these files answers RUNS with a number for each of this many features."""
    status, verdict, error = audited(folder, *files)
    must(status == 0 and verdict.startswith("RUNS") and len(verdict.split()) == count + 1, "audit over", files, status, verdict, error)
    return error


def listening(folder, *words, limit=None, before=(), **more):
    """A `dme` that listens on a free port, in place of the word PORT, and that port; no file of it may be longer than the limit. Words may come
    before its own."""

    def take():
        if limit is not None:
            signal.signal(signal.SIGXFSZ, signal.SIG_IGN)
            resource.setrlimit(resource.RLIMIT_FSIZE, (limit, limit))

    port = free_port()
    words = [str(port) if it == "PORT" else it for it in words]
    process = begun(folder, *before, str(PROGRAM), *words, preexec_fn=take, **more)
    wait_for_listener(port, lambda: process.poll() is not None, SECONDS)
    return process, port


def serving(folder, *more, **options):
    return listening(folder, "serve", "--setup", "machine.setup", "--port", "PORT", *more, **options)


def processor_time(call, *given):
    """The seconds of processor time that the processes of a call take."""
    before = resource.getrusage(resource.RUSAGE_CHILDREN).ru_utime
    call(*given)
    return resource.getrusage(resource.RUSAGE_CHILDREN).ru_utime - before


def lost_on_close(stream):
    """From here on the other end gets a reset when this one is closed, and what is in transit is lost."""
    stream.setsockopt(socket.SOL_SOCKET, socket.SO_LINGER, struct.pack("ii", 1, 0))


# ---- cases


def counted(what, wrong, count, more=""):
    print(f"{what}: {count - wrong} of {count}{more}", flush=True)
    return count - wrong, wrong


def listed(what, one, names, is_right):
    """The counts of these cases; each that is wrong is printed."""
    wrong = [it for it in names if not (PROGRAM.exists() and is_right(it))]
    for name in wrong:
        print(f"{one} {name}: not as expected")
    return counted(what, len(wrong), len(names))


def tried(name, call, *given):
    """What a call answers; None if something is wrong, which is printed."""
    try:
        return call(*given)
    except FAULTS as why:
        print(f"{name}: not as it has to be: {type(why).__name__}: {str(why)[:2000]}", flush=True)
        return None


def holds(name, call, *given):
    """Whether nothing is wrong."""

    def run():
        call(*given)
        return True

    return tried(name, run) is not None


def kept(name, what, faults, word):
    """The counts of a check that is one case, which prints its faults."""
    for fault in faults:
        print(f"{name}: {fault}")
    print(f"{what}: {'not ' if faults else ''}{word}", flush=True)
    return (0, 1) if faults else (1, 0)


def each(what, call, *given):
    """The counts of a check that is one case: a call answers how many parts it has, and how many of them are wrong."""
    count, wrong = tried(what, call, *given) or (1, 1)
    counted(what, wrong, count)
    return (0, 1) if wrong else (1, 0)


def whole(what, call, *given):
    """The counts of a check that is one case, and says what it counted."""
    found = tried(what, call, *given)
    if found is None:
        return 0, 1
    print(f"{what}: {found}", flush=True)
    return 1, 0
