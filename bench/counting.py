"""What the scripts next to it share: where the built programs are, instructions and peak memory of one run.

The programs are made by `tests/run`, or by `rt run` in their crates.
"""
import collections
import functools
import pathlib
import re
import subprocess
import sys
import tempfile

ROOT = pathlib.Path(__file__).resolve().parent.parent
sys.path.insert(0, str(ROOT / "tests"))  # some scripts use what is shared there


def built(crate):
    """The executable of a crate."""
    return str(ROOT / "crates" / crate / "out" / crate)


@functools.cache
def plain(program="plain"):
    """A program of bench/plain/, built again if its sources have changed."""
    folder = ROOT / "bench" / "plain"
    subprocess.run(["cargo", "build", "--release", "--offline", "--quiet"], cwd=folder, check=True)
    return str(folder / "target" / "release" / program)


def profiled(words, with_callees=False):
    """The instructions of a run (valgrind --tool=callgrind), those in the body of each function of each file, or also in everything that it calls,
    and what the run prints."""
    with tempfile.TemporaryDirectory() as folder:
        run = subprocess.run(["valgrind", "--tool=callgrind", f"--callgrind-out-file={folder}/out"] + words,
                             stdout=subprocess.PIPE, stderr=subprocess.PIPE)
        options = ["--threshold=100", f"--inclusive={'yes' if with_callees else 'no'}"]
        table = subprocess.run(["callgrind_annotate"] + options + [f"{folder}/out"],
                               stdout=subprocess.PIPE, stderr=subprocess.DEVNULL, text=True).stdout
    rows = re.findall(r"^ *([\d,]+) \([ \d.]+%\)  (\S+:.*)$", table, re.MULTILINE)
    bodies = [(int(count.replace(",", "")), place) for count, place in rows]
    return int(re.search(rb"Collected : (\d+)", run.stderr).group(1)), bodies, run.stdout


def function_of(place):
    """The function at a place, without its file, its program and its depth of recursion."""
    return place.partition(":")[2].partition(" [")[0].partition("'")[0]


def by_function(words):
    """The instructions of a run in the body of each function, including those of other files that were inlined into it."""
    _, bodies, _ = profiled(words)
    counts = collections.Counter()
    for count, place in bodies:
        counts[function_of(place)] += count
    return counts


def counted(words, own):
    """The instructions of a run (valgrind --tool=callgrind), those of them in the program `own`, and what the run prints."""
    everything, bodies, printed = profiled(words)
    return everything, sum(count for count, place in bodies if f"{own}]" in place), printed


def peak(words):
    """The peak of memory in KiB, and what is printed."""
    run = subprocess.run(["/usr/bin/time", "-f", "%M"] + words, stdout=subprocess.PIPE, stderr=subprocess.PIPE)
    return int(run.stderr.split()[-1]), run.stdout
