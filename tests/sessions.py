"""Connections between a client and a simulated server, as a relay between them records them, and what was so on the machine at each contact.

`ordinary_session` has a client and a server of the profile. `foreign_session` has those of FAMILIES. All is drawn from a seed.
"""

import collections
import random
import re

# A line that a client sends: its text, its tag if it has one, and what a server makes of it. `bad`: it cannot be carried out.
Asked = collections.namedtuple("Asked", "text tag sort value bad", defaults=(None, False))
WAIT = Asked("", None, "wait")  # the client waits until all is answered
Made = collections.namedtuple("Made", "target direction tool frame")
Session = collections.namedtuple("Session", "lines made")  # the relay's lines, and each contact by its point

TOOLS, ZEROS = ("P1", "P2", "P3"), ((0, 0, 0), (1000, 0, 0), (2500, -125, 0))
MOTIONS, CHANGES = ("touch", "move"), ("tool", "zero", "frame")
ELSEWHERE = "elsewhere"  # a frame that no command of the profile gives


class Chance:
    """Choices that are the same in every run."""

    def __init__(self, seed):
        self.next = random.Random(seed).random

    def below(self, count):
        return int(self.next() * count)

    def one_of(self, choices):
        return choices[self.below(len(choices))]

    def happens(self, share):
        return self.next() < share


def opposite(point):
    return tuple(-it for it in point)


# ---- lines of clients


def millimetres(length):
    """As a client may write it: 1000 as 1, 1.0 or 1.000."""
    whole, rest = divmod(abs(length), 1000)
    return ("-" if length < 0 else "") + (f"{whole}.{rest:03}" if rest else str(whole))


def point_text(point):
    return ", ".join(f"{axis}({millimetres(it)})" for axis, it in zip("XYZ", point))


class Client:
    """Makes the lines of a session, with tags that rise."""

    def __init__(self, chance, free_spelling):
        self.chance, self.free_spelling = chance, free_spelling
        self.number, self.event_number, self.lines = 0, 0, []

    def tag(self):
        self.number += 1
        return f"{self.number:05}"

    def spelled(self, text):
        if not self.free_spelling or self.chance.happens(0.7):
            return text
        text = self.chance.one_of([text, text.lower(), text.upper()])
        return re.sub(r"[(),]", lambda it: " " * self.chance.below(2) + it[0] + " " * self.chance.below(2), text)

    def add(self, sort, text, value=None, bad=False, tag=None):
        tag = tag or self.tag()
        self.lines.append(Asked(f"{tag} {self.spelled(text)}", tag, sort, value, bad))

    def tool(self, name=None, **more):
        name = name or self.chance.one_of(TOOLS)
        self.add("tool", f'ChangeTool("{name}")', name, **more)

    def zero(self, **more):
        lengths = self.chance.one_of(ZEROS)
        self.add("zero", f"SetCsyTransformation(PartCsy, {', '.join(map(millimetres, lengths))}, 0, 0, 0)", opposite(lengths), **more)

    def frame(self, name=None, **more):
        name = name or self.chance.one_of(["MachineCsy", "PartCsy"])
        self.add("frame", f"SetCoordSystem({name})", name, **more)

    def target(self):
        return tuple(self.chance.below(9) * 500 for _ in range(3))

    def touch(self, **more):
        target = self.target()
        direction = self.chance.one_of([None, (0, 0, 1000000), (-1000000, 0, 500000)])
        ijk = f", IJK({', '.join(f'{it / 1000000:g}' for it in direction)})" if direction else ""
        self.add("touch", f"PtMeas({point_text(target)}{ijk})", (target, direction), **more)

    def move(self, **more):
        self.add("move", f"GoTo({point_text(self.target())})", **more)

    def quiet(self, name=None, **more):
        self.add("quiet", name or self.chance.one_of(["ClearAllErrors()", "IsHomed()", "OnPtMeasReport(X(), Y(), Z())"]), **more)

    def home(self, **more):
        self.add("home", "Home()", **more)

    def session(self, name=None, **more):
        self.add("session", name or self.chance.one_of(["StartSession()", "EndSession()"]), **more)

    def event_tag(self):
        """A client of the profile uses no event tag twice."""
        self.event_number += 1
        return f"E{1 + self.chance.below(9) if self.free_spelling else self.event_number:04}"

    def abort(self):
        self.add("abort", "AbortE()", tag=self.event_tag())

    def asks(self, **more):
        text = self.chance.one_of(["GetProp(Tool.Name())", "Get(X(), Y(), Z())", "EnumTools()", "GetDMEVersion()", "OnMoveReportE(Dis(1), X())"])
        if self.chance.happens(0.4) and "tag" not in more:
            more["tag"] = self.event_tag()
        self.add("asks", text, **more)

    def foreign(self, **more):
        text = self.chance.one_of(['SetTool("P2")', "AlignTool(0, 0, 1)", "GoTo(R(90))", "ChangeTool(P 1)", "SetCoordSystem(JogDisplayCsy)",
                                   "SetCsyTransformation(PartCsy, 1, 0, 0, 90, 0, 0)", "AbortE()", ""])
        self.add("foreign", text, **more)

    def event(self):
        text = self.chance.one_of(['SetTool("P2")', 'ChangeTool("P1")', "SetCoordSystem(MachineCsy)", "Home()", "ReadTemperatureE()"])
        self.add("event", text, tag=self.event_tag())

    def untagged(self):
        text = self.chance.one_of(['ChangeTool("P1")', "SetCoordSystem(MachineCsy)", 'SetTool("P2")', "Home()", "PtMeas(X(1), Y(2), Z(3))", "Get()"])
        start = self.chance.one_of(["", "00000 ", "E0000 ", "000001 ", " 00001 ", "00001", "0001 ", "e0001 "])
        self.lines.append(Asked(self.chance.one_of([start + text, start + text, ""]), None, "untagged"))


# ---- the server


class Job:
    """A command that the server has taken: `number` counts the client's lines, `marks` are what it has still to answer."""

    def __init__(self, number, asked):
        self.number, self.asked, self.tag, self.sort = number, asked, asked.tag, asked.sort
        self.has_begun = self.has_ended = self.has_met = self.is_received = self.has_failed = False
        self.fails, self.data, self.loss, self.marks = asked.bad, None, None, []


class Style:
    """How a server behaves; each is a share of all cases, or a word."""

    def __init__(self, **given):
        self.receives = "reading"  # or beginning, end, any: when a `&` comes
        self.fails = self.refuses = 0  # in its turn; as the line is read
        self.ends_failed = 1  # a `%` follows a `!`
        self.stops = True  # after an error all waiting commands fail, until ClearAllErrors
        self.overlaps = False  # motions
        self.holds_marks = False  # a command's marks may come after those of the next
        self.swaps = False  # waiting commands may be carried out in another order, each with its marks
        self.in_use = "under"  # or accept, E0000: what comes of a line whose tag is in use
        self.loses = self.noise = self.reports = self.early = self.odd = self.drops = 0
        self.greeting = None
        self.__dict__.update(given)


class Server:
    def __init__(self, chance, style):
        self.chance, self.style = chance, style
        self.tool, self.frame, self.zero = None, "M", (0, 0, 0)
        self.jobs, self.at_once, self.answers, self.out = [], [], [], collections.deque()
        self.events, self.made, self.read_count, self.is_stopped = [], {}, 0, False
        self.loss, self.losses, self.reported = None, 0, set()
        if style.greeting is not None:
            self.out.append(style.greeting)

    # what it answers

    def say(self, text):
        self.out.append(text)

    def error(self, tag):
        self.say(f'{tag} ! Error(3, {self.chance.one_of([1006, 9014, 9002])}, "", "Error")')

    def say_fault(self):
        """Something that belongs to no line."""
        unused = f"0{7000 + self.chance.below(900):04}"
        self.say(self.chance.one_of([
            'E0000 ! Error(3, 1505, "", "Tool fell off")', "E0000 !", f"{unused} &", f"{unused} %", f"{unused} !", f"{unused} # X(1)",
            "E0000 &", "E7777 # X(1)", "00000 %", "hello", "", "00001", "00001 ready", "00001  %",
        ]))
        self.reported.add(self.loss)
        self.loss = None

    def refuse(self, tag):
        if self.chance.happens(0.7):
            self.say(f"{tag} &")
        self.error(tag)
        if self.chance.happens(self.style.ends_failed):
            self.say(f"{tag} %")

    def give_mark(self, job):
        """The next mark of a command; those of earlier commands under its tag come first."""
        for earlier in self.jobs[:self.jobs.index(job)]:
            while earlier.tag == job.tag and earlier.marks:
                self.give_mark(earlier)
        mark = job.marks.pop(0)
        if mark == "%" and job.loss is not None and job.loss not in self.reported:
            self.say_fault()
            self.reported.add(job.loss)
        if mark == "!":
            self.error(job.tag)
        else:
            self.say(f"{job.tag} {mark}")
        if not job.marks and job.has_ended and job in self.jobs:
            self.jobs.remove(job)

    def receive(self, job):
        if not job.is_received:
            job.is_received = True
            job.marks.append("&")

    def flush(self, *sorts):
        """All marks of changes that were made come before the next change."""
        for job in [it for it in self.jobs if it.sort in sorts and it.has_ended]:
            while job.marks:
                self.give_mark(job)

    # what it changes

    def alter_tool(self, *choices):
        self.flush("tool")
        self.tool = self.chance.one_of(choices)

    def alter_frame(self, *choices):
        self.flush("frame", "zero")
        self.frame = self.chance.one_of(choices)

    def alter_zero(self, *choices):
        self.flush("zero")
        self.zero = self.chance.one_of(choices)

    def alter_all(self):
        if self.chance.happens(0.7):
            self.alter_tool(None, *TOOLS)
        if self.chance.happens(0.7):
            self.alter_frame("M", ELSEWHERE, *map(opposite, ZEROS))
        if self.chance.happens(0.5):
            self.alter_zero(*map(opposite, ZEROS))

    def make(self, job):
        """What a command does that succeeds."""
        if job.sort == "tool":
            self.alter_tool(job.asked.value)
            self.loss = None
        elif job.sort == "frame":
            self.alter_frame("M" if job.asked.value == "MachineCsy" else self.zero)
        elif job.sort == "zero":
            self.alter_zero(job.asked.value)
            if self.frame != "M":
                self.alter_frame(self.frame, self.zero, ELSEWHERE)
        else:
            self.make_more(job)

    def make_more(self, job):
        if job.sort == "home":
            self.alter_tool(self.tool, None, *TOOLS)
        elif job.sort in ("session", "foreign"):
            self.alter_all()

    def spoil(self, job):
        """What a command may do that fails."""
        if job.sort == "tool":
            self.alter_tool(self.tool, None, *TOOLS)
        elif job.sort == "frame":
            self.alter_frame(self.frame, "M", ELSEWHERE, self.zero)
        elif job.sort == "zero":
            self.alter_zero(self.zero, *map(opposite, ZEROS))
            if self.frame != "M":
                self.alter_frame(self.frame, self.zero, ELSEWHERE)
        else:
            self.make_more(job)

    def lose(self):
        self.alter_tool(None, *TOOLS)
        self.losses += 1
        self.loss = self.losses

    def act_at_once(self, entry):
        self.alter_all()
        entry[1] -= 1
        if entry[1] <= 0:
            self.at_once.remove(entry)

    # a line is read

    def is_in_use(self, tag):
        return any(it.tag == tag for it in self.jobs) or any(it[0] == tag for it in self.answers)

    def read(self, asked):
        self.read_count += 1
        if asked.sort == "untagged":
            self.read_untagged()
        elif self.is_in_use(asked.tag) and self.style.in_use != "accept":
            self.refuse_tag(asked.tag)
        elif asked.sort == "event":
            self.at_once.append([self.read_count, 1 + self.chance.below(2)])
            self.answer(asked.tag, self.chance.one_of([["&", "%"], ["&", "!", "%"], ["&", "# X(1)", "%"], []]))
        elif asked.sort == "abort":
            self.read_abort(asked)
        elif asked.sort == "asks" and not self.is_in_use(asked.tag):
            self.read_question(asked)
        else:
            self.read_standard(asked)

    def answer(self, tag, marks):
        if marks:
            self.answers.append([tag, list(marks)])

    def read_untagged(self):
        self.at_once.append([self.read_count, 1 + self.chance.below(2)])
        if self.chance.happens(0.5):
            self.say_fault()

    def refuse_tag(self, tag):
        if self.style.in_use == "E0000":
            self.say('E0000 ! Error(3, 9002, "", "Tag in use")')
        else:
            self.refuse(tag)

    def read_question(self, asked):
        if asked.tag[0] == "E":
            self.events.append(asked.tag)
        data = [f"# {point_text((-self.read_count, -1, 0))}", '# "P1"']
        self.answer(asked.tag, self.chance.one_of([["&", "%"], ["&", data[0], "%"], ["&", data[1], data[0], "%"], ["&", "!", "%"]]))

    def read_standard(self, asked):
        while any(it[0] == asked.tag for it in self.answers):
            self.give_answer(next(it for it in self.answers if it[0] == asked.tag))
        clears = "clearallerrors" in asked.text.lower()
        if self.is_stopped and not clears or self.chance.happens(self.style.refuses) or asked.bad == "reading":
            self.refuse_standard(asked)
            return
        if clears:
            self.is_stopped = False
        job = Job(self.read_count, asked)
        job.fails = asked.bad or self.chance.happens(self.style.fails)
        when = self.style.receives
        self.jobs.append(job)
        if when == "reading" or when == "any" and self.chance.happens(0.5):
            job.is_received = True
            self.say(f"{job.tag} &")

    def refuse_standard(self, asked):
        if self.is_in_use(asked.tag):
            return self.say("E0000 !")
        self.refuse(asked.tag)
        if self.style.stops and not self.is_stopped:
            self.stop()

    def stop(self):
        """The waiting commands fail."""
        self.is_stopped = True
        for job in [it for it in self.jobs if not it.has_begun]:
            self.jobs.remove(job)
            if not self.chance.happens(self.style.drops):
                self.fail_waiting(job)

    def fail_waiting(self, job):
        for earlier in [it for it in self.jobs if it.tag == job.tag]:
            while earlier.marks:
                self.give_mark(earlier)
        if not job.is_received:
            self.say(f"{job.tag} &")
        self.error(job.tag)
        if self.chance.happens(self.style.ends_failed):
            self.say(f"{job.tag} %")

    def read_abort(self, asked):
        self.say(f"{asked.tag} &")
        for job in [it for it in self.jobs if it.has_begun and not it.has_ended]:
            job.fails = True
        self.stop()
        self.answer(asked.tag, ["%"])

    # a command is carried out

    def is_done(self, job):
        return job.has_ended and (self.style.holds_marks or not job.marks)

    def may_begin(self, job):
        if self.style.swaps and not job.has_begun:
            return not any(it.has_begun for it in self.jobs)  # nothing that was carried out has still marks to give
        before = [it for it in self.jobs[:self.jobs.index(job)] if not self.is_done(it)]
        if self.style.overlaps:
            return all(it.sort in MOTIONS and it.has_begun and (it.has_met or it.sort == "move" or job.sort in MOTIONS) for it in before)
        return not before

    def begin(self, job):
        for entry in [it for it in self.at_once if it[0] < job.number]:
            if self.chance.happens(0.7):
                self.alter_all()
            self.at_once.remove(entry)
        job.has_begun = True
        if self.style.receives in ("beginning", "any"):
            self.receive(job)
        if job.sort == "tool":
            self.alter_tool(None, self.tool)

    def meet(self, job):
        """A touch meets the surface."""
        job.has_met, job.loss = True, self.loss
        point = (1 + len(self.made), 7, 500)
        self.made[point] = Made(*job.asked.value, self.tool, self.frame)
        job.data = f"# {point_text(point)}"

    def fail_early(self, job):
        """The error is reported before the command has ended."""
        self.receive(job)
        job.marks.append("!")
        job.has_failed = True

    def end(self, job):
        self.receive(job)
        if job.fails:
            self.end_failed(job)
            return
        self.make(job)
        job.has_ended = True
        if job.data or "ishomed" in job.asked.text.lower():
            job.marks.append(job.data or "# IsHomed(1)")
        if job.sort == "asks":
            job.marks.append("# " + point_text((-job.number, -2, 0)))
        job.marks.append("%")
        if self.chance.happens(self.style.odd):
            job.marks.insert(self.chance.below(len(job.marks)), self.chance.one_of(["&", "# X(1)", "!"]))

    def end_failed(self, job):
        self.spoil(job)
        job.has_ended = True
        if not job.has_failed or self.chance.happens(0.1):
            job.marks.append("!")
        if self.chance.happens(self.style.ends_failed):
            job.marks.append("%")
        if not job.marks:
            self.jobs.remove(job)
        if self.style.stops and not self.is_stopped:
            self.stop()

    # what it may do next

    def next_of_job(self, job):
        if not job.has_begun:
            return (self.begin, job) if self.may_begin(job) else None
        if job.has_ended:
            return None
        if job.sort == "touch" and not job.fails and not job.has_met:
            return self.meet, job
        if job.fails and not job.has_failed and self.chance.happens(0.5):
            return self.fail_early, job
        is_first = job is next(it for it in self.jobs if not it.has_ended and (it.has_begun or not self.style.swaps))
        return (self.end, job) if is_first else None

    def may_give(self, job):
        return job.marks and (self.style.holds_marks or self.style.swaps or job is self.jobs[0] or job.marks[0] in "&!")

    def give_answer(self, entry):
        mark = entry[1].pop(0)
        if mark == "!":
            self.error(entry[0])
        else:
            self.say(f"{entry[0]} {mark}")
        if not entry[1]:
            self.answers.remove(entry)

    def steps(self):
        if self.at_once and self.chance.happens(0.3):
            return [(self.act_at_once, self.at_once[0])]
        found = [(self.give_mark, it) for it in self.jobs if self.may_give(it)]
        found += [it for it in map(self.next_of_job, list(self.jobs)) if it]
        found += [(self.give_answer, it) for it in self.answers] + [(self.act_at_once, it) for it in self.at_once]
        return found

    def add_noise(self, script):
        """What no line asked for; the script is what the client will send."""
        chance, style = self.chance, self.style
        if chance.happens(style.loses):
            self.lose()
        if chance.happens(style.noise):
            self.say_fault()
        if self.events and chance.happens(style.reports):
            self.say(f"{chance.one_of(self.events)} # X({chance.below(9)}), Y(0), Z(0)")
        if script and chance.happens(style.early):
            self.say(f"{chance.one_of(script).tag} {chance.one_of(['&', '%', '# X(1), Y(2), Z(3)'])}")


# ---- a connection


class Relay:
    """Between a client that sends a script and a server."""

    def __init__(self, script, server, window):
        self.script, self.server, self.window = collections.deque(script), server, window
        self.up, self.lines, self.tags, self.ended, self.open_count = collections.deque(), [], set(), set(), 0

    def client_sends(self):
        asked = self.script.popleft()
        self.up.append(asked)
        self.lines.append((">", asked.text))
        if asked.tag:
            self.tags.add(asked.tag)
            self.open_count += 1

    def server_reads(self):
        self.server.read(self.up.popleft())

    def relays_an_answer(self):
        text = self.server.out.popleft()
        self.lines.append(("<", text))
        if text[5:7] in (" %", " !"):
            self.ended.add(text[:5])
            self.open_count -= 1

    def may_send(self):
        """Within the window, or while nothing will be answered any more; a client that waits does so for an end, or an error, under each tag."""
        if self.script and self.script[0] is WAIT and self.tags <= self.ended:
            self.script.popleft()
        return bool(self.script) and self.script[0] is not WAIT and self.open_count < self.window

    def steps(self, chance):
        work = self.server.steps()
        steps = [self.server_reads] if self.up else []
        steps += [self.relays_an_answer] if self.server.out else []
        steps += [lambda: act(job) for act, job in [chance.one_of(work)]] * 2 if work else []
        if self.may_send() or self.script and self.script[0] is not WAIT and not steps:
            steps.append(self.client_sends)
        return steps


def carried(chance, script, server, window, most_steps):
    """A relay's lines of a connection that breaks off after that many steps."""
    relay = Relay(script, server, window)
    for _ in range(most_steps):
        steps = relay.steps(chance)
        if not steps and not relay.script:
            break
        if not steps:
            relay.script.popleft()
            continue
        chance.one_of(steps)()
        server.add_noise(relay.script)
    return [(side, text.encode("latin-1")) for side, text in relay.lines]


# ---- ordinary sessions

GREETINGS = [None, None, "E0000 # Welcome", 'E0000 ! Error(1, 700, "", "Warm-up")', "E0000 &", "server ready", ""]


def sets_up(client, chance):
    client.tool()
    for _ in range(chance.below(2)):
        client.quiet("OnPtMeasReport(X(), Y(), Z())")
    if chance.happens(0.5):
        client.frame("MachineCsy")
        if chance.happens(0.5):
            client.zero()
    else:
        client.zero()
        client.frame("PartCsy")


def measures(client, chance):
    for _ in range(1 + chance.below(5)):
        chance.one_of([client.move, client.touch, client.touch])()
        if chance.happens(0.2):
            client.asks()


def is_disturbed(client, chance):
    """An error or an abort while commands wait, and a client that stops."""
    kind = chance.below(3)
    if kind == 0:
        client.touch(bad="turn")
    elif kind == 1:
        client.tool("PX", bad="reading")
    else:
        client.touch()
    client.touch()
    if kind == 2:
        client.abort()
    client.lines.append(WAIT)
    client.quiet("ClearAllErrors()")


def ordinary_session(seed):
    """Each of its contacts is known."""
    chance = Chance(seed)
    client = Client(chance, False)
    if chance.happens(0.4):
        client.add("asks", "OnMoveReportE(Time(1), Dis(1), X(), Y(), Z())", tag=client.event_tag())
    client.session("StartSession()")
    if chance.happens(0.3):
        client.move(bad="turn")
        client.lines.append(WAIT)
    client.quiet("ClearAllErrors()")
    client.quiet("IsHomed()")
    client.home()
    while len(client.lines) < 45 and (client.lines[-1].sort == "home" or chance.happens(0.75)):
        sets_up(client, chance)
        measures(client, chance)
        if chance.happens(0.3):
            is_disturbed(client, chance)
    client.session("EndSession()")
    receives, greeting = chance.one_of(["reading", "beginning", "any"]), chance.one_of(GREETINGS)
    style = Style(receives=receives, overlaps=chance.happens(0.5), greeting=greeting, reports=0.05)
    server = Server(chance, style)
    lines = carried(chance, client.lines, server, 1 + chance.below(16), chance.one_of([10_000, 10_000, 60 + chance.below(600)]))
    return Session(lines, server.made)


# ---- sessions of other clients and servers

USUAL = ("touch",) * 8 + ("tool",) * 4 + ("frame",) * 3 + ("zero",) * 2 + ("move",) * 2 + ("quiet",)

# Which lines there are besides the usual ones; how the server behaves, where a list is a choice.
FAMILIES = {
    "ends_that_cross": ((), dict(holds_marks=True, swaps=[True, False], receives=["reading", "beginning", "any"], stops=False)),
    "early_and_late_receipts": ((), dict(receives=["reading", "beginning", "end", "any"], overlaps=[True, False], fails=[0, 0.1])),
    "eight_in_flight": ((), dict(overlaps=True, fails=0.1, refuses=0.1, stops=[True, False])),
    "failures": ((), dict(fails=0.3, refuses=[0, 0.2], ends_failed=[1, 0.5, 0], stops=[True, False], receives=["reading", "any"])),
    "aborts": (("abort",) * 3, dict(ends_failed=[1, 0.5], fails=0.1, stops=True)),
    "foreign_commands": (("foreign", "foreign", "asks"), dict(fails=[0, 0.3], refuses=[0, 0.2], stops=[True, False])),
    "foreign_event_lines": (("event", "event", "asks"), dict(overlaps=[True, False])),
    "questions": (("asks",) * 5, dict(reports=0.1)),
    "lines_without_a_tag": (("untagged",) * 2, dict(receives=["reading", "any"])),
    "tags_in_use": (("again",) * 8, dict(in_use=["under", "under", "accept"], stops=False, receives=["beginning", "end", "any"])),
    "uses_without_an_end": (("again",) * 3 + ("asks",), dict(in_use=["E0000", "under"], fails=[0, 0.15], stops=False, ends_failed=[1, 0.5, 0],
                                                             receives=["reading", "beginning", "any"])),
    "unasked_errors": ((), dict(noise=0.02, loses=0.02)),
    "tools_that_fall_off": ((), dict(loses=0.05, overlaps=[True, False], holds_marks=[True, False], stops=False)),
    "marks_that_come_twice": ((), dict(odd=0.2, noise=[0, 0.02])),
    "replies_before_their_commands": ((), dict(early=0.03)),
    "sessions_that_end_and_begin": (("session",) * 2, dict(fails=[0, 0.2], drops=[0, 0.5])),
    "homing": (("home",) * 3, dict(fails=[0, 0.2], overlaps=[True, False])),
    "zero_points": (("zero", "zero", "zero", "frame", "frame"), dict(fails=[0, 0.1], refuses=[0, 0.1], stops=[True, False])),
    "all_of_it": (
        ("foreign", "event", "untagged", "asks", "abort", "session", "home", "again"),
        dict(fails=[0, 0.1], refuses=[0, 0.1], stops=[True, False], overlaps=[True, False], holds_marks=[True, False], loses=[0, 0.02],
             noise=[0, 0.01], reports=0.03, odd=[0, 0.02], in_use=["under", "accept"], receives=["reading", "beginning", "any"])),
}


def uses_a_tag_again(client, chance):
    """Some lines under the tag of one of the lines just before them."""
    tags = [it.tag for it in client.lines[-3:] if it.tag and it.tag[0] != "E"]
    tag = chance.one_of(tags) if tags else None
    for _ in range(1 + chance.below(3)):
        getattr(client, chance.one_of(["tool", "touch", "frame", "zero", "move", "asks", "foreign"]))(tag=tag)


def foreign_session(family, seed):
    chance = Chance(f"{family} {seed}")
    more, given = FAMILIES[family]
    client, count = Client(chance, True), 8 + chance.below(53)
    while len(client.lines) < count:
        sort = chance.one_of(USUAL + more if chance.happens(0.8) else USUAL)
        if sort == "again":
            uses_a_tag_again(client, chance)
        elif sort in CHANGES + MOTIONS and chance.happens(0.03):
            getattr(client, sort)(bad=chance.one_of(["reading", "turn"]))
        else:
            getattr(client, sort)()
    style = Style(**{name: chance.one_of(it) if isinstance(it, list) else it for name, it in given.items()})
    server = Server(chance, style)
    window = chance.one_of([1, 2, 4, 8, 100])
    return Session(carried(chance, client.lines, server, window, chance.one_of([10_000, 10_000, 100 + chance.below(600)])), server.made)
