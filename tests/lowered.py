"""Programs with numbers and texts in variables, branches, selections, loops, jumps and macros, made at random and lowered.

Each is carried out here, too, by a second reading: of the tree that its text is written from, with exact fractions, and with power series for
the functions. The moves, in Cartesian coordinates, the touches that bores are given, their lines and passes, their order and where each decision
leads have to be those of `dme lower`; or the line of the first statement that cannot be carried out that of its refusal. Some of the programs are
flat already. What is lowered is lowered again, and stays.

`run` calls this with a few programs; by itself: tests/lowered.py [COUNT], 3000 by default.
"""

import collections
import fractions
import math
import random
import sys

from common import ROOT, called, must, whole

WHOLE, REAL, TEXTS = ("I", "J", "K"), ("X", "Y"), ("S", "T")
MOST_LETTERS = 5
QUOTED = "'A'"
COMPARISONS = {".LT.": "__lt__", ".LE.": "__le__", ".EQ.": "__eq__", ".NE.": "__ne__", ".GE.": "__ge__", ".GT.": "__gt__"}
MOST = 3_000

# A working plane by the places of its two axes and of the height, none if it is not taken; and components of directions, of which the last is
# not taken, since its length is not 1.
PLANES = {"XYPLAN": (0, 1, 2), "YZPLAN": (1, 2, 0), "ZXPLAN": (2, 0, 1), "XZPLAN": None}
DIRECTIONS = (("0", "0", "1"), ("-1", "0", "0"), ("0.6", "0", "-.8"), ("0.7071", "-0.7071", "0"), ("0.5", "0.5", "0.5"))


class NoValue(Exception):
    """An expression has no value, or none that is taken."""


def rounded(value, places):
    """The nearest decimal of that many places; of two the one farther from zero."""
    whole = int(abs(value) * 10**places + fractions.Fraction(1, 2))
    return fractions.Fraction(whole if value >= 0 else -whole, 10**places)


def bounded(value):
    """A number that is taken: numerator and denominator are up to 10^18."""
    if max(abs(value.numerator), value.denominator) > 10**18:
        raise NoValue
    return value


def inverse_tangent(number):
    """The arc tangent of one divided by a number."""
    return sum(fractions.Fraction((-1) ** it, (2 * it + 1) * number ** (2 * it + 1)) for it in range(40))


PI = 16 * inverse_tangent(5) - 4 * inverse_tangent(239)


def series(angle, first):
    """The sine (from the first power on) or the cosine (from the power of zero on) of radians, as a power series."""
    if abs(angle) > 7:
        raise NoValue
    return sum((-1) ** it * angle ** (2 * it + first) / math.factorial(2 * it + first) for it in range(26))


def wave(angle, first):
    return rounded(series(angle, first), 12)


def tangent(angle):
    """It is not taken if one more than it is past 50 times the cosine."""
    sine, cosine = series(angle, 1), series(angle, 0)
    if abs(cosine) + abs(sine) > 50 * cosine**2:
        raise NoValue
    return rounded(sine / cosine, 12)


def root(number):
    if not 0 <= number <= 10**12:
        raise NoValue
    return fractions.Fraction(math.isqrt(number.numerator * 10**24 // number.denominator), 10**12)


def turned(angle, factor):
    """An angle in another unit."""
    if abs(angle) > 10**6:
        raise NoValue
    return rounded(angle * factor, 12)


FUNCTIONS = {
    "SQRT({})": root,
    "COS(DTOR({}))": lambda it: wave(turned(it, PI / 180), 0),
    "SIN(DTOR({}))": lambda it: wave(turned(it, PI / 180), 1),
    "COS({}/4)": lambda it: wave(it / 4, 0),
    "SIN({}/4)": lambda it: wave(it / 4, 1),
    "TAN(DTOR({}))": lambda it: tangent(turned(it, PI / 180)),
    "TAN({}/4)": lambda it: tangent(it / 4),
    "RTOD({})": lambda it: turned(it, 180 / PI),
}


class Minutes(fractions.Fraction):
    """An angle in degrees that is written with minutes."""


class Refused(Exception):
    """The statement of this line cannot be carried out."""


class TooMuch(Exception):
    """Too many statements are carried out, or a number grows too large."""


class Jumped(Exception):
    """To the label of this name."""


class Macro:
    """Its name, its parameters and its parts; a parameter may have the name of a variable, and is not assigned to."""

    def __init__(self, name, params):
        self.name, self.params, self.parts, self.line = name, params, None, None


class Scope:
    """The values of names: a parameter's is that of its argument where the macro was called, now."""

    def __init__(self, variables, arguments):
        self.variables, self.arguments = variables, arguments

    def __getitem__(self, name):
        if name in self.arguments:
            value, scope = self.arguments[name]
            return value(scope)
        return self.variables[name]

    def __setitem__(self, name, value):
        if abs(value.numerator) > MOST:
            raise TooMuch
        self.variables[name] = value


class Made:
    """A program: its lines, and what they mean, as a list of parts, each with its line."""

    def __init__(self, seed):
        self.random, self.lines, self.loops, self.labels, self.answers = random.Random(seed), [], [], {}, []
        # A macro calls those before it; now and then itself, one that is not there, or one with an argument too many.
        self.macros = [Macro(f"A{n}", self.random.sample(WHOLE + ("X", "N"), self.random.randint(0, 2))) for n in range(self.random.randint(0, 3))]
        self.called, self.params = list(self.macros), []

    def add(self, text):
        self.lines.append(text)
        return len(self.lines)

    def asks(self, name, value):
        """A question to the operator, with its answer on the command line."""
        self.answers += ["--value", f"{name}={value}"]
        return f"PROMPT/'{name}?'"

    # An expression is its text, how strongly it binds (0 a sum, 1 a product, 2 an operand), and what it gives for values of names.
    def operand(self, names):
        if names and self.random.random() < 0.5:
            name = self.random.choice(names)
            return name, 2, lambda values: values[name]
        number = self.random.randint(0, 9)
        return str(number), 2, lambda values: fractions.Fraction(number)

    def expression(self, names, depth=2):
        if depth == 0 or self.random.random() < 0.4:
            return self.operand(names)
        rank = self.random.choice((0, 0, 1))
        one, other = self.expression(names, depth - 1), self.expression(names, depth - 1)
        sign = "*" if rank else self.random.choice("+-")
        left = one[0] if one[1] >= rank else f"({one[0]})"
        right = other[0] if other[1] > rank else f"({other[0]})"
        apply = {"+": lambda a, b: a + b, "-": lambda a, b: a - b, "*": lambda a, b: a * b}[sign]
        return f"{left}{self.blank()}{sign}{self.blank()}{right}", rank, lambda values: apply(one[2](values), other[2](values))

    def blank(self):
        return self.random.choice(("", "", " "))

    def condition(self, depth=2):
        """Likewise: an alternative binds least, then what holds together, then an opposite or a comparison."""
        kind = self.random.choice(("compare", "compare", "texts", "or", "and", "not")) if depth else "compare"
        if kind == "texts":
            one, other, mark = self.piece(), self.piece(), self.random.choice((".EQ.", ".NE."))
            return f"{one[0]} {mark} {other[0]}", 2, lambda values: (one[2](values) == other[2](values)) == (mark == ".EQ.")
        if kind == "compare":
            one, other, mark = self.expression(WHOLE, 1), self.expression(WHOLE, 1), self.random.choice(list(COMPARISONS))
            return f"{one[0]} {mark} {other[0]}", 2, lambda values: getattr(one[2](values), COMPARISONS[mark])(other[2](values))
        if kind == "not":
            inner = self.condition(depth - 1)
            return f".NOT. ({inner[0]})", 2, lambda values: not inner[2](values)
        rank = 0 if kind == "or" else 1
        parts = [self.condition(depth - 1) for _ in range(2)]
        texts = [it[0] if it[1] >= rank else f"({it[0]})" for it in parts]
        join = any if kind == "or" else all
        return f" .{kind.upper()}. ".join(texts), rank, lambda values: join([it[2](values) for it in parts])

    def number(self):
        """The text of a coordinate, and its value in millimetres."""
        inner, name = self.expression(WHOLE), self.random.choice(REAL)
        text, function = self.random.choice(list(FUNCTIONS.items()))
        return self.random.choice([
            (f"{name}*{text.format(f'({inner[0]})')}", lambda values: bounded(values[name] * bounded(function(inner[2](values))))),
            (inner[0], inner[2]),
            (f"({inner[0]})/8", lambda values: inner[2](values) / 8),
            (f"{name}-({inner[0]})", lambda values: values[name] - inner[2](values)),
        ])

    def move(self):
        """In Cartesian coordinates, mostly; also in polar ones, or by a distance."""
        return self.random.choice((self.move_to, self.move_to, self.move_around, self.move_by))()

    def move_to(self):
        texts = [self.number() for _ in range(3)]
        line = self.add(f"GOTO/{self.random.choice(('', 'CART,'))}{','.join(it[0] for it in texts)}")
        return lambda flow: flow.move(line, flow.decimals(line, texts))

    def around(self):
        """Polar coordinates; some angles are in degrees and minutes, some also in seconds."""
        texts = [self.number() for _ in range(3)]
        if self.random.random() < 0.2:
            sign, parts = self.random.choice(("", "", "-")), [self.random.randint(0, 399), self.random.randint(0, 59), self.random.randint(0, 599)]
            text = f"{sign}{parts[0]}:{parts[1]:{self.random.choice(('', '02'))}}"
            if self.random.random() < 0.5:
                text += f":{parts[2] // 10}.{parts[2] % 10}"
            else:
                parts[2] = 0
            value = parts[0] + fractions.Fraction(parts[1], 60) + fractions.Fraction(parts[2], 36_000)
            texts[1] = text, lambda values: Minutes(-value if sign else value)
        return texts

    def move_around(self):
        texts = self.around()
        line = self.add(f"GOTO/POL,{','.join(it[0] for it in texts)}")
        return lambda flow: flow.move(line, flow.around(line, texts))

    def move_by(self):
        distance, direction = self.number(), self.random.choice(DIRECTIONS)
        line = self.add(f"GOTO/INCR,{distance[0]},{','.join(direction)}")
        return lambda flow: flow.move(line, flow.moved(line, distance, [fractions.Fraction(it) for it in direction]))

    def label(self, letter):
        """The pieces of a feature's name: letters or a digit as they are, then up to two values, of whole numbers or texts."""
        names = TEXTS if self.random.random() < 0.6 else [it for it in WHOLE if it not in self.params]
        values = self.random.choices(names, k=self.random.choice((0, 1, 1, 2, 2)))
        return [letter + self.random.choice(("", "", "A", "1")), *(f"@{it}" for it in values)]

    def named(self):
        """Blocks between assignments to texts, so that labels of other pieces are one name more often."""
        return [(None, self.random.choice((self.touch, self.assignment_of_text))()) for _ in range(self.random.randint(2, 12))]

    def touch(self):
        """A block of one touch."""
        pieces, form = self.label("P"), self.random.choice(("CART", "CART", "POL"))
        texts = self.around() if form == "POL" else [self.number() for _ in range(3)]
        first = self.add(f"MEAS/POINT,F({''.join(pieces)}),1")
        line = self.add(f"PTMEAS/{form},{','.join(it[0] for it in texts)},0,0,1")
        last = self.add("ENDMES")

        def carry_out(flow):
            flow.comes_to(first)
            flow.write(first, f"MEAS/POINT,F({flow.name(first, pieces)}),1")
            flow.comes_to(line)
            values = flow.around(line, texts) if form == "POL" else flow.decimals(line, texts)
            values = ",".join(map(written, flow.micrometres(line, values)))
            flow.write(line, f"PTMEAS/CART,{values},0.000000,0.000000,1.000000")
            flow.comes_to(last)
            flow.write(last, "ENDMES")
            flow.place = None

        return carry_out

    def bore(self):
        """A block that is given its touches, but for a circle of two, or a cylinder of two or of no length. Its label and its place may have values."""
        plane, count, kind = self.random.choice(list(PLANES)[:3]), self.random.choice((2, 3, 3, 4, 4, 5, 7, 12)), self.random.choice(("CIRCLE", "CYLNDR"))
        centre = [fractions.Fraction(self.random.randint(-400, 400), 8) for _ in range(3)]
        diameter, axis, depth = fractions.Fraction(self.random.randint(1, 200), 4), [0, 0, 0], fractions.Fraction(self.random.randint(0, 90), 2)
        axis[PLANES[plane][2]] = self.random.choice((1, -1))
        numbers = [*map(float, centre), *axis, float(diameter)] + [float(depth)] * (kind == "CYLNDR")
        pieces, text = self.label("B"), None
        if len(pieces) > 1:
            text = self.number()
            numbers[0] = text[0]
        label = f"F({''.join(pieces)})"
        self.add(f"{label}=FEAT/{kind},INNER,CART,{','.join(map(str, numbers))}")
        count += 4 * (kind == "CYLNDR" and count > 2)
        first = self.add(f"MEAS/{kind},{label},{count}")
        last = self.add("ENDMES")
        levels = [(count, 0)] if kind == "CIRCLE" else [((count + 1) // 2, depth / 4), (count // 2, depth * 3 / 4)]

        def carry_out(flow):
            flow.comes_to(first)
            flow.write(first, f"MEAS/{kind},F({flow.name(first, pieces)}),{count}")
            if count == 2 or kind == "CYLNDR" and depth == 0:
                raise Refused(last)
            if text:
                centre[0] = flow.decimals(last, [text])[0]
            flow.comes_to(last)
            for most, way in levels:
                middle = [at + rounded(way * it, 6) for at, it in zip(centre, axis)]
                for it in range(most):
                    flow.write_move(last, middle)
                    flow.touch_outwards(last, middle, diameter / 2, turned(fractions.Fraction(360 * it, most), PI / 180), PLANES[plane])
            flow.write_move(last, middle)
            flow.write(last, "ENDMES")
            flow.place = None

        return carry_out

    def plane(self):
        name = self.random.choices(list(PLANES), (4, 4, 4, 1))[0]
        self.add(f"WKPLAN/{name}")

        def carry_out(flow):
            flow.plane = PLANES[name]

        return carry_out

    def unit(self):
        """From here on there is no place that a distance is from."""
        name = self.random.choices(("ANGDEC", "ANGRAD", "ANGDMS"), (4, 4, 3))[0]
        line = self.add(f"UNITS/MM,{name}")

        def carry_out(flow):
            flow.comes_to(line)
            flow.write(line, "UNITS/MM")
            flow.unit, flow.place = name, None

        return carry_out

    def assignment(self):
        name = self.random.choice([it for it in WHOLE + REAL if it not in self.loops])
        value = self.expression(WHOLE, 1)
        if name in REAL:
            value = f"({value[0]})/4", 1, lambda values, inner=value[2]: inner(values) / 4
        line = self.add(f"{name}=ASSIGN/{value[0]}")

        def carry_out(flow):
            flow.assign(line, name, value[2](flow.values))

        return carry_out

    def piece(self):
        """A text, or the variable of one."""
        if self.random.random() < 0.5:
            name = self.random.choice(TEXTS)
            return name, 2, lambda values: values[name]
        text = "".join(self.random.choice("AB") for _ in range(self.random.randint(0, 2)))
        return f"'{text}'", 2, lambda values: text

    def assignment_of_text(self):
        name, pieces = self.random.choice(TEXTS), [self.piece() for _ in range(self.random.choice((1, 1, 2, 3)))]
        texts = ",".join(it[0] for it in pieces)
        line = self.add(f"{name}=ASSIGN/{texts if len(pieces) == 1 else f'CONCAT({texts})'}")

        def carry_out(flow):
            text = "".join(it[2](flow.values) for it in pieces)
            if len(text) > MOST_LETTERS:
                raise Refused(line)
            flow.values.variables[name] = text

        return carry_out

    def branch(self, depth, targets):
        condition = self.condition()
        line = self.add(f"IF/({condition[0]})")
        first = self.block(depth - 1, targets)
        second, other = [], None
        if self.random.random() < 0.5:
            other = self.add("ELSE")
            second = self.block(depth - 1, targets)
        end = self.add("ENDIF")

        def carry_out(flow):
            holds = condition[2](flow.values)
            flow.lead(line, "IF", (line if holds else other or end) + 1)
            flow.block(first if holds else second)

        return carry_out

    def selection(self, depth, targets):
        """Branches by the value of an expression: each has a list of texts, or none if it is for all other values. Some programs have a
        move between two branches, which refuses the selection if it comes before the branch that is wanted."""
        value = self.piece if self.random.random() < 0.3 else lambda: self.expression(WHOLE, 1)
        wanted = value()
        line = self.add(f"SELECT/{wanted[0]}")
        kinds = self.random.choices(("case", "other", "move"), (14, 1, 1), k=self.random.randint(0, 3))
        kinds += ["other"] * (self.random.random() < 0.5)
        branches = [getattr(self, f"branch_of_{it}")(depth, targets, wanted, value) for it in kinds]
        end = self.add("ENDSEL")

        def carry_out(flow):
            value = wanted[2](flow.values)
            for index, (texts, inner, head) in enumerate(branches):
                if inner is None or texts is None and index + 1 < len(branches):
                    raise Refused(line)
                if texts is None or any(it[2](flow.values) == value for it in texts):
                    flow.lead(line, "SELECT", head + 1)
                    flow.block(inner)
                    return
            flow.lead(line, "SELECT", end + 1)

        return carry_out

    def branch_of_case(self, depth, targets, wanted, value):
        """Some texts of it are the wanted one, written in another way."""
        texts = [value() for _ in range(self.random.randint(1, 3))]
        if value != self.piece and self.random.random() < 0.3:
            number = self.random.randint(2, 7)
            same = f"({wanted[0]})*{number}/{number}", 1, wanted[2]
            texts.insert(self.random.randint(0, len(texts)), same)
        head = self.add(f"CASE/{','.join(it[0] for it in texts)}")
        inner = self.block(depth - 1, targets)
        self.add("ENDCAS")
        return texts, inner, head

    def branch_of_other(self, depth, targets, *_):
        head = self.add("DFTCAS")
        inner = self.block(depth - 1, targets)
        self.add("ENDCAS")
        return None, inner, head

    def branch_of_move(self, *_):
        self.move()
        return None, None, None

    def loop(self, depth, targets):
        free = [it for it in WHOLE if it not in self.loops]
        if not free:
            return self.move()
        name, step = self.random.choice(free), self.random.choice((None, 1, 2, 3, -1, -2))
        first = self.random.randint(-3, 5)
        others = [it for it in WHOLE if it != name]
        limit = (lambda n: (str(n) if n >= 0 else f"-{-n}", 2, lambda values: fractions.Fraction(n)))(self.random.randint(-3, 6))
        if self.random.random() < 0.3:
            other = self.random.choice(others)
            limit = other, 2, lambda values: values[other]
        line = self.add(f"DO/{name},{first},{limit[0]}" + (f",{step}" if step is not None else ""))
        self.loops.append(name)
        inner = self.block(depth - 1, targets)
        self.loops.pop()
        end, by = self.add("ENDDO"), step or 1

        def carry_out(flow):
            last = limit[2](flow.values)
            if last.denominator != 1:
                raise Refused(line)
            flow.assign(line, name, fractions.Fraction(first))
            while flow.values[name] <= last if by > 0 else flow.values[name] >= last:
                flow.block(inner)
                if limit[2](flow.values) != last:
                    raise Refused(end)
                flow.assign(end, name, flow.values[name] + by)

        return carry_out

    def call(self):
        macro = self.random.choice(self.called + [Macro("B", [])] * (self.random.random() < 0.03)) if self.called else Macro("B", [])
        count = len(macro.params) + (self.random.random() < 0.03)
        arguments = [self.expression(WHOLE, 1) for _ in range(count)]
        texts = [it[0] if it[1] == 2 else f"({it[0]})" for it in arguments]
        line = self.add(",".join([f"CALL/M({macro.name})", *texts]))
        return lambda flow: flow.call(line, macro, [it[2] for it in arguments])

    def body(self, macro, index):
        """The lines of a macro, and its parts."""
        macro.line = self.add(f"M({macro.name})=MACRO" + "/" * bool(macro.params) + ",".join(macro.params))
        self.called, self.params = self.macros[:index] + [macro] * (self.random.random() < 0.05), macro.params
        self.loops += macro.params
        macro.parts = self.block(2, [])
        self.loops, self.params, self.called = [], [], list(self.macros)
        self.add("ENDMAC")

    def jump(self, targets):
        if not targets:
            return self.move()
        name = self.random.choice(targets)
        line = self.add(f"JUMPTO/({name})")

        def carry_out(flow):
            flow.lead(line, "JUMPTO", self.labels[name])
            raise Jumped(name)

        return carry_out

    def part(self, depth, targets):
        kinds = ["move"] * 6 + ["touch"] * 3 + ["assignment"] * 3 + ["assignment_of_text", "bore", "plane", "unit"]
        kinds += 3 * ((["branch", "selection", "loop", "jump"] if depth else []) + ["call"] * bool(self.called))
        kind = self.random.choice(kinds)
        if kind in ("branch", "selection", "loop"):
            return getattr(self, kind)(depth, targets)
        return self.jump(targets) if kind == "jump" else getattr(self, kind)()

    def block(self, depth, targets):
        """Some parts, and perhaps a label below them, to which those above may jump; each part with the label that stands above it."""
        label = None
        if self.random.random() < 0.4:
            label = f"L{len(self.labels)}"
            self.labels[label] = None
        parts = [(None, self.part(depth, targets + [label] * (label is not None))) for _ in range(self.random.randint(1, 4))]
        if label is not None:
            self.labels[label] = self.add(f"({label})")
            parts.append((label, self.part(depth, targets)))
        return parts


class Flow:
    """A program as it is carried out."""

    def __init__(self, lines):
        self.lines, self.values, self.out, self.leads, self.open, self.calls, self.turns = lines, Scope({}, {}), [], [], [], [], 0
        self.plane, self.unit, self.place, self.passes = PLANES["XYPLAN"], "ANGDEC", None, collections.Counter()
        self.names = {}

    def name(self, line, pieces):
        """What pieces are together. With a value among them, other pieces before may not have been the same: they were another feature."""
        parts = [(it[0] == "@", str(self.values[it[1:]]) if it[0] == "@" else it) for it in pieces]
        name = "".join(text for _, text in parts)
        if len(pieces) > 1 and self.names.setdefault(name, parts) != parts:
            raise Refused(line)
        return name

    def comes_to(self, line):
        self.passes[line] += 1

    def write(self, line, text):
        passes = f", pass {self.passes[line]}" if self.passes[line] > 1 else ""
        self.out.append(f"{text} $$ line {line}{passes}")

    def lead(self, line, word, target):
        """A decision: what follows is the statement on a line, or below it, if it ends a macro or begins one."""
        calls = list(self.calls)
        while "MACRO" in self.lines[target - 1] or self.lines[target - 1] == "ENDMAC" and calls:
            target = calls.pop() + 1 if self.lines[target - 1] == "ENDMAC" else self.lines.index("ENDMAC", target) + 2
        self.leads.append(f"dme: line {line}: {word} is left out: it leads to line {target}")

    def move(self, line, values):
        self.comes_to(line)
        self.write_move(line, values)
        self.place = values

    def write_move(self, line, values):
        self.write(line, f"GOTO/CART,{','.join(map(written, self.micrometres(line, values)))}")

    def touch_outwards(self, line, centre, radius, turn, plane):
        """A touch from the centre: the surface looks back to it."""
        way = [value for _, value in sorted(zip(plane, (wave(turn, 0), wave(turn, 1), fractions.Fraction(0))))]
        place = ",".join(map(written, self.micrometres(line, [at + rounded(radius * it, 6) for at, it in zip(centre, way)])))
        direction = ",".join(written(int(rounded(-it, 6) * 10**6), 6) for it in way)
        self.write(line, f"PTMEAS/CART,{place},{direction}")

    def decimals(self, line, texts):
        """Values of coordinates: one that is not whole is written with six decimals."""
        try:
            values = [it[1](self.values) for it in texts]
            return [it if isinstance(it, Minutes) else rounded(it, 6) for it in values]
        except NoValue:
            raise Refused(line) from None

    def around(self, line, texts):
        radius, angle, height = self.decimals(line, texts)
        if self.plane is None or isinstance(angle, Minutes) and self.unit != "ANGDMS":
            raise Refused(line)
        try:
            turn = angle if self.unit == "ANGRAD" else turned(angle, PI / 180)
            values = radius * wave(turn, 0), radius * wave(turn, 1), height
        except NoValue:
            raise Refused(line) from None
        return [rounded(value, 6) for _, value in sorted(zip(self.plane, values))]

    def moved(self, line, distance, direction):
        [length] = self.decimals(line, [distance])
        if self.place is None or abs(sum(it * it for it in direction) - 1) > fractions.Fraction(2, 10**5):
            raise Refused(line)
        return [at + rounded(length * it, 6) for at, it in zip(self.place, direction)]

    def micrometres(self, line, values):
        """Up to a kilometre, read to a micrometre."""
        lengths = [int(rounded(it, 3) * 1000) for it in values]
        if any(abs(it) > 1_000_000_000 for it in lengths):
            raise Refused(line)
        return lengths

    def assign(self, line, name, value):
        whole = abs(value.numerator) // value.denominator * (1 if value >= 0 else -1)
        self.values[name] = fractions.Fraction(whole) if name in WHOLE else value

    def call(self, line, macro, arguments):
        if macro.parts is None or macro in self.open or len(arguments) != len(macro.params):
            raise Refused(line)
        self.lead(line, "CALL", macro.line + 1)
        scope, self.values = self.values, Scope(self.values.variables, {it: (value, self.values) for it, value in zip(macro.params, arguments)})
        self.open.append(macro)
        self.calls.append(line)
        self.block(macro.parts)
        self.calls.pop()
        self.open.pop()
        self.values = scope

    def block(self, parts):
        at = 0
        while at < len(parts):
            self.turns += 1
            if self.turns > MOST:
                raise TooMuch
            try:
                parts[at][1](self)
                at += 1
            except Jumped as jumped:
                to = [index for index, (label, _) in enumerate(parts) if label == jumped.args[0]]
                if not to:
                    raise
                at = to[0]


def written(units, places=3):
    """Units of the last place, as a decimal."""
    return f"{'-' if units < 0 else ''}{abs(units) // 10**places}.{abs(units) % 10**places:0{places}}"


def made(seed, again=0):
    """The text of a program, and what comes out: its statements and decisions, or the line that is refused."""
    program = Made(f"{seed} {again}")
    program.add("DMISMN/'MADE',05.2")
    selected = program.add("SNSLCT/S(P1)")
    flow, parts, below = Flow(program.lines), [], []
    if seed % 10 == 0:
        parts = [(None, flat_move(program)) for _ in range(program.random.randint(1, 9))]
    else:
        program.add("DECL/GLOBAL,INTGR,I,J,K")
        program.add("DECL/GLOBAL,REAL,X,Y")
        program.add(f"DECL/GLOBAL,CHAR,{MOST_LETTERS},S,T")
        for name in WHOLE + REAL:
            number = program.random.randint(0, 9)
            program.add(f"{name}={f'ASSIGN/{number}' if program.random.random() < 0.8 else program.asks(name, number)}")
            flow.values[name] = fractions.Fraction(number)
        for name in TEXTS:
            program.add(f"{name}={'ASSIGN/' if name == 'T' else program.asks(name, QUOTED)}" + QUOTED * (name == "T"))
            flow.values.variables[name] = "A"
        below = [it for it in enumerate(program.macros) if program.random.random() < 0.3]
        for index, macro in enumerate(program.macros):
            if (index, macro) not in below:
                program.body(macro, index)
        parts = program.block(3, []) if seed % 10 > 1 else program.named()
    last = program.add("ENDFIL")
    for index, macro in below:
        program.body(macro, index)
    text = "\n".join(program.lines) + "\n"
    try:
        flow.block(parts)
    except Refused as refused:
        return text, program.answers, refused.args[0]
    except TooMuch:
        return made(seed, again + 1)
    return text, program.answers, (["DMISMN $$ line 1", f"SNSLCT/S(P1) $$ line {selected}", *flow.out, f"ENDFIL $$ line {last}"], flow.leads)


def flat_move(program):
    values = [program.random.randint(-9_999, 9_999) for _ in range(3)]
    line = program.add(f"GOTO/{','.join(written(it) for it in values)}")
    return lambda flow: flow.move(line, [fractions.Fraction(it, 1000) for it in values])


def lowered(text, answers):
    return called(ROOT, "lower", "--even-touches", *answers, text=text)


def without_lines(statements):
    return [it.partition(" $$ ")[0] for it in statements]


def check_one(seed):
    """Whether it was refused."""
    text, answers, expected = made(seed)
    status, out, errors = lowered(text, answers)
    if isinstance(expected, int):
        must(status == 1 and errors.endswith(f" at line {expected}\n"), seed, expected, errors, text)
        return True
    statements = [it for it in out.splitlines() if not it.startswith("$$")]
    leads = [it for it in errors.splitlines() if ": it leads to line " in it]
    must(status == 0 and (statements, leads) == expected, seed, status, errors, text, out, expected)
    status, again, errors = lowered(out, [])
    must(status == 0 and without_lines([it for it in again.splitlines() if not it.startswith("$$")]) == without_lines(statements), seed, "again", errors)
    return False


def check_all(count):
    refused = sum(check_one(seed) for seed in range(count))
    must(0 < refused < count, "how many are refused", refused)
    return f"{count} programs, {refused} of them refused"


def check_lowered(count=300):
    return whole("ok lowered", check_all, count)


if __name__ == "__main__":
    sys.exit(1 if check_lowered(*map(int, sys.argv[1:2] or ["3000"]))[1] else 0)
