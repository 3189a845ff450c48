#!/usr/bin/env python3
"""Measures a program of touches that `dme loop` runs over one TCP connection to itself, next to a bare exchange of the same bytes
(plain/src/bin/ping_pong.rs), and prints the tables of RESULTS.md.

What the two ends send each other is computed from the lines of `dme check` and the answers of docs/PROTOCOL.md. The bare exchange gets it in
a file, and compares and parses nothing. Both programs are first run under strace: each turn must be one send of exactly the computed bytes,
and what is received before the next must be the same bytes; both must set the same socket options, and `dme loop` must print the points. Then
both are run in turn, N times, and the least time of each counts: by the clock and of the processor, including the kernel. Last the
instructions are counted (valgrind --tool=callgrind, which does not see the kernel's), as in measure.py: the same run with no touch is
subtracted, and growth is the cost of the second half of the touches divided by that of the first.

It needs strace, valgrind, cargo, and the built program (see counting.py). It takes a few minutes.

usage: bench/loop.py [--runs N] [--only-times] [DME]    DME is the program measured, if not the built one
"""
import argparse
import os
import re
import subprocess
import sys
import tempfile
import time

from counting import built, function_of, peak, plain, profiled
from common import length

SIZES = (1_000, 9_800)  # a program of 10,000 statements cannot hold more touches in features of 100
WINDOWS = (1, 16)
RUNS = 5
FEATURE = 100
SHIFTS = ((2, 0, 0), (0, 0, 4), (-1, 1, 0))  # in micrometres
FUNCTIONS = 16
PARTS = ("dme_orders::reading::read_program", "link_world::links::watched_turn", "link_world::server_pump::serve_turns",
         "link_world::report_text::write_report", "client_core::client::Client::send", "client_core::client::Client::read_one",
         "server_core::server::Server::read_one", "server_core::server::Server::turn", "server_core::server::Server::machine",
         "__memset_avx2_unaligned_erms")


def program_of(touches):
    lines = ["DMISMN/'LOOP',05.2", "SNSLCT/S(P1)"]
    for number in range(touches):
        if number % FEATURE == 0:
            lines.append(f"MEAS/PLANE,F(F{number}),{min(FEATURE, touches - number)}")
        lines.append(f"PTMEAS/CART,{number % 900}.125,20.5,-3.0625,0,0,1")
        if (number + 1) % FEATURE == 0 or number + 1 == touches:
            lines.append("ENDMES")
    return "\n".join(lines + ["ENDFIL", ""])


def setup():
    return "".join(f"{line}\n" for line in ["TOOL P1"] + ["SHIFT " + " ".join(map(length, shift)) for shift in SHIFTS])


def touched(command, number):
    """The point of a touch, shifted as the setup says, in micrometres."""
    lengths = re.search(r"X\((.*?)\), Y\((.*?)\), Z\((.*?)\)", command).groups()
    return [int(length.replace(".", "")) + shift for length, shift in zip(lengths, SHIFTS[number % len(SHIFTS)])]


def batches(lines, window):
    """The lines of a plan as the client sends them if everything that it has sent is answered before its next turn."""
    batch = []
    for line in lines:
        is_held = "ClearAllErrors" in line and batch or any("IsHomed" in sent for sent in batch)
        if is_held or len(batch) == window:
            yield batch
            batch = []
        batch.append(line)
    yield batch


def said(lines, window):
    """The turns of both ends, and the points that are reported."""
    turns, points = [], []
    for batch in batches(lines, window):
        answers = [f"{line[:5]} &\r\n" for line in batch]
        for line in batch:
            if "IsHomed" in line:
                answers.append(f"{line[:5]} # IsHomed(0)\r\n")
            if "PtMeas(" in line:
                points.append(touched(line, len(points)))
                x, y, z = map(length, points[-1])
                answers.append(f"{line[:5]} # X({x}), Y({y}), Z({z})\r\n")
            answers.append(f"{line[:5]} %\r\n")
        turns += ["".join(f"{line}\r\n" for line in batch).encode(), "".join(answers).encode()]
    return turns, points


class Exchange:
    """That many touches with a window: the files of both programs, and the words that run them."""

    def __init__(self, folder, ours, theirs, touches, window):
        self.touches, self.window = touches, window
        at = os.path.join(folder, f"{touches}.{window}")
        for ending, text in (("dmis", program_of(touches)), ("setup", setup())):
            with open(f"{at}.{ending}", "w") as file:
                file.write(text)
        checked = subprocess.run([ours, "check", f"{at}.dmis"], stdout=subprocess.PIPE, text=True, check=True).stdout
        self.turns, self.points = said(checked.splitlines(), window)
        with open(f"{at}.turns", "wb") as file:
            file.write(b"".join(b"%d\n%b" % (len(turn), turn) for turn in self.turns))
        self.ours = [ours, "loop", "--setup", f"{at}.setup", "--window", str(window), f"{at}.dmis"]
        self.theirs = [theirs, f"{at}.turns"]
        self.name = f"loop: {touches:,} touches, window {window}"

    def bytes(self):
        return sum(map(len, self.turns))

    def must_print(self, printed):
        """The report of `dme` has the points in their order."""
        rows = printed.decode().splitlines()
        told = [row for row in rows if re.match(r"-?\d", row)]
        if rows[0] != "STATE Done" or told != [" ".join(map(length, point)) for point in self.points]:
            sys.exit(f"{self.name}: printed other points, or has not ended")

    def traffic(self, words):
        """What a run sends and receives and which options it sets, by strace; this must be the turns."""
        with tempfile.NamedTemporaryFile("r") as file:
            run = subprocess.run(["strace", "-f", "-xx", "-s", "1000000", "-o", file.name, "-e", "trace=network"] + words,
                                 stdout=subprocess.PIPE, check=True)
            calls = re.findall(r'^\d+ +(\w+)\((\d+), (.*)\) = (\d+)$', file.read(), re.MULTILINE)
        options = [rest for call, _, rest, _ in calls if call == "setsockopt"]
        moved = []
        for call, end, rest, count in calls:
            if call in ("sendto", "recvfrom"):
                shown = bytes.fromhex(re.match(r'"(.*?)"', rest).group(1).replace("\\x", ""))
                moved.append((call, end, shown[:int(count)]))
        sends = [shown for call, _, shown in moved if call == "sendto"]
        received = []
        for call, _, shown in moved:
            if call == "sendto":
                received.append(b"")
            else:
                received[-1] += shown
        if sends != self.turns or received != self.turns:
            sys.exit(f"{self.name}, {words[0]}: sends or receives other bytes than the turns")
        return options, len(moved) - len(sends), run.stdout

    def must_agree(self):
        """Both programs send and receive the turns, with the same options. Answers how many bytes, sends and receives each has."""
        options, receives, printed = self.traffic(self.ours)
        self.must_print(printed)
        if any("TCP_NODELAY" in option for option in options):
            self.theirs.append("nodelay")
        options_plain, receives_plain, printed = self.traffic(self.theirs)
        if options != options_plain:
            sys.exit(f"{self.name}: ours sets {options}, plain {options_plain}")
        if printed != f"{len(self.turns)} turns, {self.bytes()} bytes\n".encode():
            sys.exit(f"{self.name}: plain printed {printed!r}")
        return receives, receives_plain


def seconds(words):
    """The time of a run by the clock and of the processor, the start of the process included."""
    begin = time.perf_counter()
    run = subprocess.Popen(words, stdout=subprocess.DEVNULL)
    _, status, used = os.wait4(run.pid, 0)
    run.returncode = os.waitstatus_to_exitcode(status)
    if run.returncode != 0:
        sys.exit(f"{words}: status {run.returncode}")
    return time.perf_counter() - begin, used.ru_utime + used.ru_stime


def least(runs):
    """The least time by the clock, and the least of the processor, in milliseconds."""
    return [1000 * min(times) for times in zip(*runs)]


def times(exchange, count):
    """The least times of both in that many runs, and of plain with the other setting of TCP_NODELAY."""
    other = [word for word in exchange.theirs if word != "nodelay"]
    if other == exchange.theirs:
        other = exchange.theirs + ["nodelay"]
    runs = [[seconds(words) for words in (exchange.ours, exchange.theirs, other)] for _ in range(count)]
    return [least(one) for one in zip(*runs)]


def counts(exchanges, words_of):
    """The instructions of that many touches, and their growth."""
    none, half, whole = (profiled(words_of(exchange))[0] for exchange in exchanges)
    return whole - none, (whole - half) / (half - none)


def print_times(exchanges, count):
    print("| Measured | Bytes | Turns | Ours | Plain | Ours / plain | More, a touch | Ours, processor | Plain, processor | Ours / plain |")
    print("|---|---|---|---|---|---|---|---|---|---|", flush=True)
    apart = []
    for exchange in exchanges:
        receives, receives_plain = exchange.must_agree()
        (wall, used), (wall_plain, used_plain), (wall_other, used_other) = times(exchange, count)
        print(f"| {exchange.name} | {exchange.bytes():,} | {len(exchange.turns):,} | {wall:.1f} ms | {wall_plain:.1f} ms | "
              f"{wall / wall_plain:.2f} | {1000 * (wall - wall_plain) / exchange.touches:.2f} µs | {used:.1f} ms | {used_plain:.1f} ms | "
              f"{used / used_plain:.2f} |", flush=True)
        apart.append(f"{exchange.name}: {wall_other:.1f} ms, processor {used_other:.1f} ms; "
                     f"received {receives:,} times, plain {receives_plain:,}")
    is_set = "nodelay" in exchanges[0].theirs
    print(f"\nTCP_NODELAY is {'set' if is_set else 'not set'}. Plain with the other setting, and how often bytes are received:")
    print("\n".join(apart), flush=True)


def print_counts(make):
    print("\n| Measured | Ours | Each | Plain | Each | Ours / plain | Growth, ours | Growth, plain | Peak, ours | Peak, plain |")
    print("|---|---|---|---|---|---|---|---|---|---|", flush=True)
    for size in SIZES:
        for window in WINDOWS:
            parts = [make(touches, window) for touches in (0, size // 2, size)]
            count, growth = counts(parts, lambda part: part.ours)
            count_plain, growth_plain = counts(parts, lambda part: part.theirs)
            memory, memory_plain = (peak(words)[0] for words in (parts[-1].ours, parts[-1].theirs))
            print(f"| {parts[-1].name} | {count:,} | {count / size:,.1f} a touch | {count_plain:,} | {count_plain / size:,.1f} | "
                  f"{count / count_plain:.2f} | {growth:.3f} | {growth_plain:.3f} | {memory:,} KiB | {memory_plain:,} KiB |", flush=True)


def named(place):
    """The name of a function that callgrind_annotate shows, without its type arguments."""
    return re.sub(r"::<.*", "", function_of(place))


def told(bodies, touches, is_wanted):
    """The costliest of some functions, with their instructions for each touch."""
    functions = {}
    for count, place in bodies:
        functions[named(place)] = functions.get(named(place), 0) + count
    most = sorted((row for row in functions.items() if is_wanted(row[0])), key=lambda row: -row[1])[:FUNCTIONS]
    return "; ".join(f"{name} {count / touches:,.0f}" for name, count in most)


def print_bodies(make):
    """Where `dme` spends its instructions, for each touch: those of its parts with everything that they call, and those in the bodies of the
    costliest functions."""
    for window in WINDOWS:
        exchange = make(SIZES[-1], window)
        print(f"\n{exchange.name}, instructions a touch")
        print("with all that is called:", told(profiled(exchange.ours, True)[1], exchange.touches, lambda name: name in PARTS))
        print("in bodies:", told(profiled(exchange.ours)[1], exchange.touches, lambda _: True), flush=True)


def main():
    words = argparse.ArgumentParser()
    words.add_argument("--runs", type=int, default=RUNS)
    words.add_argument("--only-times", action="store_true")
    words.add_argument("dme", nargs="?", default=built("dme_program"))
    given = words.parse_args()
    theirs = plain("ping_pong")
    with tempfile.TemporaryDirectory() as folder:
        def make(touches, window):
            return Exchange(folder, given.dme, theirs, touches, window)
        print_times([make(size, window) for size in SIZES for window in WINDOWS], given.runs)
        if not given.only_times:
            print_counts(make)
            print_bodies(make)


if __name__ == "__main__":
    main()
