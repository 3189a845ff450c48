#!/usr/bin/env python3
"""Measures ours and the plain programs of bench/plain/ in one run, and prints the table of RESULTS.md.

`check` on three programs, `wire` (lines read from bytes in pieces), `server` (rounds of one move and one touch, its calls made directly) and
`client` (a program of touches, answered by a peer in memory whose machine is not homed). For each it counts the instructions executed
(valgrind --tool=callgrind) for half of the work and for all of it, subtracts the fixed part (the same run with no work; for the client also
what reads the program), and divides the cost of the second half by that of the first: 1.00 if the cost does not grow. The peak of memory is
that of the whole work. What is printed is compared with what is expected; bench/compare.py compares more.

It needs the built programs (see counting.py), and builds the plain ones. It takes a few minutes.

usage: bench/measure.py [WORD..]    only the rows whose names have all the words
"""
import concurrent.futures
import os
import subprocess
import sys
import tempfile
import threading

from counting import ROOT, built, counted, peak, plain

WORKERS = 2
LINES = 100_000
ROUNDS = 100_000
TOUCHES = 9_900


def statements_of(count):
    """A program of that many statements: features of one move and one touch each."""
    lines = ["DMISMN/'BENCH',05.2", "SNSLCT/S(P1)"]
    feature = 0
    while len(lines) + 5 <= count:
        feature += 1
        x = feature % 900
        lines += [
            f"MEAS/POINT,F(A{feature}),1",
            f"GOTO/CART,{x}.125,20.5,{feature % 50}",
            f"PTMEAS/CART,{x}.125,20.5,-3.0625,0,0,1",
            "ENDMES",
        ]
    while len(lines) + 1 < count:
        lines.append("GOTO/1,2,3")
    return lines + ["ENDFIL"]


def commented(count):
    """Likewise, with a comment after each statement and each GOTO continued."""
    lines = []
    for line in statements_of(count):
        if line.startswith("GOTO/CART,"):
            lines += [line[:10] + " $", "  " + line[10:] + "  $$ the way to the surface"]
        else:
            lines += ["$$ " + "-" * 40, line + "  $$ as drawn"]
    return lines


def wide(count):
    """Lines of 4,096 bytes: a text that is skipped."""
    filler = "TEXT/OPER,'" + "x" * (4096 - 12) + "'"
    return ["DMISMN/'WIDE',05.2"] + [filler] * count + ["ENDFIL"]


def length(number):
    number %= 1_000_000
    return f"{number // 1000}.{number % 1000:03d}"


def summed(numbers):
    total = 0
    for number in numbers:
        total = (total * 31 + number) % 2**64
    return total


def server_prints(rounds):
    """The count of contacts and the sum over the lines that such a server answers."""
    answers = [b"00001 &\r\n00001 %\r\n00002 &\r\n00002 # IsHomed(0)\r\n00002 %\r\n"
               b"00003 &\r\n00003 %\r\n00004 &\r\n00004 %\r\n"]
    for number in range(rounds):
        tag = f"{number % 9999 + 1:05d}"
        point = f"X({length(number)}), Y({length(number // 3)}), Z({length(number // 7)})"
        answers.append(f"{tag} &\r\n{tag} %\r\n{tag} &\r\n{tag} # {point}\r\n{tag} %\r\n".encode())
    return f"{rounds} contacts, sum {summed(b''.join(answers))}\n".encode()


def client_prints(touches):
    """The count of points, and the sum over the lines of such a client and the points that are reported to it."""
    commands = ["StartSession()", "ClearAllErrors()", "IsHomed()", "Home()", "OnPtMeasReport(X(), Y(), Z())",
                "SetCoordSystem(MachineCsy)", 'ChangeTool("P1")']
    commands += [f"PtMeas(X({number}.000), Y(1.000), Z(2.000), IJK(0.000000, 0.000000, 1.000000))"
                 for number in range(touches)]
    commands.append("EndSession()")
    numbers = list("".join(f"{tag:05d} {command}\r\n" for tag, command in enumerate(commands, 1)).encode())
    for number in range(touches):
        numbers += [number, number // 3, number // 7]
    return f"{touches} points, sum {summed(numbers)}\n".encode()


def quiet_turns(touches, window):
    """Turns of a plan with that many touches: ClearAllErrors is alone in the turn after StartSession, and nothing follows IsHomed in its turn."""
    begun = 3 if window == 1 else 2
    behind = 4 + touches + 1
    return begun + -(-behind // window)


def quiet_prints(touches, window):
    """The count of points, the turns, and the sum over points that deviate by 0.002 in x and by 0.004 in z in turn."""
    numbers = []
    for number in range(touches):
        numbers += [number * 1_000 + 2 * (number % 2 == 0), 1_000, 2_000 + 4 * (number % 2)]
    return f"{touches} points, {quiet_turns(touches, window)} turns, sum {summed(numbers)}\n".encode()


class Row:
    """What is measured: an amount of work of a unit, the words of a run of a part of it, what these print (None if that is not known beforehand),
    and the words of the runs whose cost is not part of the work."""

    def __init__(self, name, crate, work, unit, words, prints, aside):
        self.name, self.crate, self.work, self.unit = name, crate, work, unit
        self.words, self.prints, self.aside = words, prints, aside

    def cost(self, program, work):
        """All instructions of that much work, and those outside the C library."""
        everything, own, printed = counted([program] + self.words(work), os.path.basename(program))
        wanted = self.prints(work)
        if wanted is not None and printed != wanted:
            sys.exit(f"{self.name}, {program}: printed {printed!r}, not {wanted!r}")
        for words in self.aside(work):
            less, own_less, _ = counted([program] + words, os.path.basename(program))
            everything, own = everything - less, own - own_less
        return everything, own

    def measure(self, program):
        """The instructions of the whole work and the cost of the second half relative to the first, both in total and outside the C library; the
        peak in KiB."""
        none, half, whole = (self.cost(program, work) for work in (0, self.work // 2, self.work))
        memory, _ = peak([program] + self.words(self.work))
        return [(all_ - begin, (all_ - first) / (first - begin)) for begin, first, all_ in zip(none, half, whole)], memory


def check_row(name, work, unit, lines_of, folder):
    """A row of `check`, on the program made for a count of the unit."""
    def words(count):
        path = os.path.join(folder, f"{name}.{count}.dmis")
        if not os.path.exists(path):
            own = f"{path}.{threading.get_ident()}"  # both programs are measured at once, and either may come first
            with open(own, "wb") as file:
                file.write(("\r\n".join(lines_of(count)) + "\r\n").encode())
            os.replace(own, path)
        return ["check", path]
    return Row(name, "dme_program", work, unit, words, lambda _: None, lambda _: [])


def rows(folder):
    given = [
        check_row("check: 10,000 statements", 10_000, "statement", statements_of, folder),
        check_row("check: 10,000 statements with comments and continuations", 10_000, "statement", commented, folder),
        check_row("check: 1,000 lines of 4,096 bytes", 1_000, "line", wide, folder),
    ]
    for side in ("commands", "responses"):
        for piece in (1, 7, 4_096):
            given.append(Row(f"wire: {side} in pieces of {piece:,}", "bench_world", LINES, "line",
                             lambda lines, side=side, piece=piece: ["wire", side, str(lines), str(piece)],
                             lambda lines, side=side: f"{lines} {side}\n".encode(), lambda _: []))
    given.append(Row("server: rounds of a move and a touch", "bench_world", ROUNDS, "round",
                     lambda rounds: ["server", str(rounds)], server_prints, lambda _: []))
    for window in (1, 16):
        # A client with window 0 is refused, once its program has been read.
        given.append(Row(f"client: touches, window {window}", "bench_world", TOUCHES, "touch",
                         lambda touches, window=window: ["client", str(touches), str(window)], client_prints,
                         lambda touches: [["client", str(touches), "0"]]))
    return given


def quiet_rows():
    """The undisturbed run, only of ours: what each touch costs at the beginning and at the end."""
    def prints(window):
        return lambda touches: quiet_prints(touches, window)
    # A run with window 0 is refused, once its program has been read.
    return [Row(f"undisturbed run: touches, window {window}", "bench_world", TOUCHES, "touch",
                lambda touches, window=window: ["quiet", str(touches), str(window)], prints(window),
                lambda touches: [["quiet", str(touches), "0"]])
            for window in (1, 16)]


def revision(folder):
    """The last commit of a folder, and whether it has changes since."""
    told = [subprocess.run(["git"] + words + ["--", folder], cwd=ROOT, capture_output=True, text=True).stdout.strip()
            for words in (["log", "-1", "--format=%h"], ["status", "--porcelain"])]
    return told[0] + (" with changes" if told[1] else "")


def table_row(row, ours, theirs):
    ((count, growth), _), memory = ours
    ((count_plain, growth_plain), _), memory_plain = theirs
    return (f"| {row.name} | {count:,} | {count / row.work:,.1f} a {row.unit} | {count_plain:,} | {count_plain / row.work:,.1f} | "
            f"{count / count_plain:.2f} | {growth:.3f} | {growth_plain:.3f} | {memory:,} KiB | {memory_plain:,} KiB |")


def quiet_row(row, ours):
    ((count, growth), _), memory = ours
    return f"| {row.name} | {count:,} | {count / row.work:,.1f} a {row.unit} | {growth:.3f} | {memory:,} KiB |"


def print_quiet(wanted, pool):
    chosen = [row for row in quiet_rows() if all(word in row.name for word in wanted)]
    runs = [(row, pool.submit(row.measure, built(row.crate))) for row in chosen]
    if chosen:
        print("\n| Measured | Ours | Each | Growth | Peak |\n|---|---|---|---|---|")
    for row, run in runs:
        print(quiet_row(row, run.result()), flush=True)


def main():
    wanted = sys.argv[1:]
    theirs = plain()
    print(f"Ours of commit {revision('crates')}, the plain programs of commit {revision('bench/plain')}.\n")
    print("| Measured | Ours | Each | Plain | Each | Ours / plain | Growth, ours | Growth, plain | Peak, ours | Peak, plain |")
    print("|---|---|---|---|---|---|---|---|---|---|", flush=True)
    apart = []
    with tempfile.TemporaryDirectory() as folder, concurrent.futures.ThreadPoolExecutor(WORKERS) as pool:
        chosen = [row for row in rows(folder) if all(word in row.name for word in wanted)]
        runs = [(row, pool.submit(row.measure, built(row.crate)), pool.submit(row.measure, theirs)) for row in chosen]
        for row, first, second in runs:
            print(table_row(row, first.result(), second.result()), flush=True)
            if row.name.startswith("client"):
                (_, (own, growth)), _ = first.result()
                apart.append(f"{row.name}: {own / row.work:,.1f} a touch, growth {growth:.3f}")
        print_quiet(wanted, pool)
    if apart:
        print(f"\nOurs without the instructions of the C library: {'; '.join(apart)}.")


if __name__ == "__main__":
    main()
