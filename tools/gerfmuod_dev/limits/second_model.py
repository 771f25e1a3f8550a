"""A second model of what the program prints for scripts and traces, of both versions.

It is written from the rules alone: the steps' table of checks, the grammar, and the four counters, which it counts anew
over the steps of the present generation at each wave. The tools that try the built program use it.
"""
import collections
import functools
import re

NAMES = {
    1: "NoNode", 2: "SameNode", 3: "TaskKnown", 4: "NoTask", 5: "WrongLife", 6: "Inactive", 7: "ActionKnown", 8: "NoAction",
    9: "MessageKnown", 10: "NoMessage", 11: "NotIdle", 12: "NoToken", 13: "WaveOpen", 14: "WaveNotEnded", 15: "Ended", 19: "Stranger",
}
NUMBER = r"(0|[1-9][0-9]{0,5})"
COUNTS = {
    "insert": 3, "supply": 1, "begin": 1, "done": 1, "open": 2, "close": 2, "ready": 1, "send": 3, "recv": 2, "end": 2,
    "start": 0, "down": 1, "give": 1, "up": 1, "judge": 0,
}
# in version 2 the lines of a message end with its generation, and a pool can be reopened
COUNTS_OF = {1: COUNTS, 2: {**COUNTS, "send": 4, "recv": 3, "end": 3, "reopen": 0}}
# the versions by the first line, of scripts and of traces
HEADS = {"sim": {"script 2": 2}, "audit": {"trace 1": 1, "trace 2": 2}}
JUDGED = re.compile(r"judge (not|ended [1-9][0-9]{0,5})", re.ASCII)


class Refused(Exception):
    """A step is refused; the arguments are the number of the refusal and its name."""


class Wrong(Exception):
    """A text is not in the grammar; the argument is the number of its first line that is not."""


def check(checks):
    """Refuses the step with the number of the first check that holds."""
    if number := next((number for number, holds in checks.items() if holds), None):
        raise Refused(number, NAMES[number])


class World:
    """The tasks, actions and messages, and the list of the accepted steps of the present generation."""

    def __init__(self, nodes, generation=1):
        self.nodes, self.generation = nodes, generation
        self.home, self.life = {}, {}
        self.actions = {("opening", i, 0) for i in range(nodes)}
        self.under, self.used = {}, set()
        self.list, self.over = [], None

    def pending(self, i):
        unfinished = sum(self.home[t] == i and self.life[t] != "done" for t in self.home)
        return unfinished + sum(action[1] == i for action in self.actions)

    def counted(self, name, i):
        return sum(step[:2] == (name, i) for step in self.list)

    def take(self, step):
        try:
            reply = getattr(self, step[0])(*step[1:])
        except Refused as refused:
            return "refused {} {}".format(*refused.args)
        if step[0] != "reopen":
            self.list.append(step)
        return reply or "ok"

    def insert(self, i, t, k):
        check({1: i >= self.nodes, 3: t in self.home, 6: not self.pending(i)})
        self.home[t], self.life[t] = i, k or "ready"

    def supply(self, t):
        check({4: t not in self.home, 5: not isinstance(self.life.get(t), int)})
        self.life[t] = self.life[t] - 1 or "ready"

    def change(self, t, before, after):
        check({4: t not in self.home, 5: self.life.get(t) != before})
        self.life[t] = after

    begin = functools.partialmethod(change, before="ready", after="running")
    done = functools.partialmethod(change, before="running", after="done")

    def open(self, i, a):
        check({1: i >= self.nodes, 7: ("named", i, a) in self.actions, 6: not self.pending(i)})
        self.actions.add(("named", i, a))

    def shut(self, i, a=0, g=None, *, kind):
        check({1: i >= self.nodes, 19: g not in (None, self.generation), 8: (kind, i, a) not in self.actions})
        self.actions.remove((kind, i, a))

    close = functools.partialmethod(shut, kind="named")
    ready = functools.partialmethod(shut, kind="opening")
    end = functools.partialmethod(shut, kind="message")

    def send(self, i, j, m, g=1):
        check({1: max(i, j) >= self.nodes, 19: g != self.generation, 2: i == j, 9: m in self.used, 6: not self.pending(i)})
        self.used.add(m)
        self.under[m] = j

    def recv(self, j, m, g=1):
        check({1: j >= self.nodes, 19: g != self.generation, 10: self.under.get(m) != j})
        del self.under[m]
        self.actions.add(("message", j, m))

    def since_start(self):
        """Returns the steps since the last `start`, including it; an empty list if there was none."""
        last = max((place for place, step in enumerate(self.list) if step[0] == "start"), default=len(self.list))
        return self.list[last:]

    def wave(self):
        """Returns the steps of the open wave; an empty list if none is open."""
        since = self.since_start()
        return [] if ("give", 0) in since else since

    def is_reached(self, i, wave):
        return bool(wave) and (i == 0 or ("down", i) in wave)

    def start(self):
        since = self.since_start()
        check({15: self.over, 13: since and ("judge",) not in since})

    def down(self, i):
        wave = self.wave()
        check({1: i >= self.nodes, 15: self.over, 12: i == 0 or ("down", i) in wave or not self.is_reached((i - 1) // 2, wave)})

    def give(self, i):
        wave = self.wave()
        is_left = any(("up", child) not in wave for child in (2 * i + 1, 2 * i + 2) if child < self.nodes)
        has_no_token = not self.is_reached(i, wave) or ("give", i) in wave or is_left
        check({1: i >= self.nodes, 15: self.over, 12: has_no_token, 11: self.pending(i)})
        return "wave {} sent {} received {}".format(*self.sums([*self.list, ("give", 0)])[-1]) if i == 0 else None

    def up(self, i):
        wave = self.wave()
        check({1: i >= self.nodes, 15: self.over, 12: i == 0 or ("give", i) not in wave or ("up", i) in wave})

    def sums(self, steps):
        """Returns for each ended wave its number and its sums, counted at each node's own visit."""
        ended, visits, number = [], {}, 0
        for place, step in enumerate(steps):
            if step[0] == "start":
                visits, number = {}, number + 1
            elif step[0] == "give":
                visits[step[1]] = place
                if step[1] == 0:
                    before = [other[0] for node, visit in visits.items() for other in steps[:visit] if other[1:2] == (node,)]
                    ended.append((number, before.count("send"), before.count("recv")))
        return ended

    def judge(self):
        since, sums = self.since_start(), self.sums(self.list)
        check({15: self.over, 14: ("give", 0) not in since or ("judge",) in since})
        if len(sums) > 1 and len({*sums[-2][1:], *sums[-1][1:]}) == 1:
            self.over = sums[-2][0]
            return f"ended {self.over}"
        return "not"

    def reopen(self):
        check({5: not self.over})
        self.__init__(self.nodes, self.generation + 1)
        return f"generation {self.generation}"


def parsed(line, version, command):
    """Returns the step of a line, and its judgement if it has one; None if it is not a step."""
    judged = JUDGED.fullmatch(line) if command == "audit" else None
    word = line.split(" ")[0]
    if judged or word not in COUNTS_OF[version] or line == "judge" and command == "audit":
        return (("judge",), judged[1]) if judged else None
    found = re.fullmatch(word + rf" {NUMBER}" * COUNTS_OF[version][word], line, re.ASCII)
    is_step = found and not (word == "insert" and int(found[3]) > 16)
    return ((word, *map(int, found.groups())), None) if is_step else None


def read(text, command):
    """Returns the version of a text, the number of its nodes, the number of the line after that, and the steps."""
    *lines, rest = text.decode("latin-1").split("\n")
    version = HEADS[command].get(lines[0] if lines else "", 1 if command == "sim" else None)
    first = 2 if version == 2 or command == "audit" else 1
    if not (nodes := re.fullmatch("nodes ([1-8])", lines[first - 1], re.ASCII) if version and len(lines) >= first else None):
        raise Wrong(first if version else 1)
    steps = [parsed(line, version, command) for line in lines[first:]]
    if None in steps or rest:
        raise Wrong(first + 1 + (steps.index(None) if None in steps else len(steps)))
    return version, int(nodes[1]), first + 1, steps


def simulated(nodes, steps):
    world = World(nodes)
    out = [world.take(step) for step, _ in steps]
    counts = [(world.pending(i), world.counted("send", i), world.counted("recv", i)) for i in range(nodes)]
    out += ["node {} pending {} sent {} received {}".format(i, *count) for i, count in enumerate(counts)]
    out += ["total pending {} sent {} received {} under {}".format(*map(sum, zip(*counts)), len(world.under))]
    is_quiet = not world.actions and not world.under and all(life == "done" for life in world.life.values())
    return "\n".join([*out, f"quiet {'yes' if is_quiet else 'no'}", ""])


def audited(version, nodes, first, steps):
    """Returns the status of `audit` for the steps of a trace, and what it prints."""
    world, last = World(nodes), "not"
    for number, (step, judgement) in enumerate(steps, first):
        reply = world.take(step)
        if reply.startswith("refused"):
            return 2, f"line {number} {reply}\n"
        if judgement and judgement != reply:
            return 2, f"line {number} unjustified\n"
        last = "not" if step == ("reopen",) else judgement or last
    counts = collections.Counter(step[0] for step, _ in steps)
    return 0, (
        f"steps {len(steps)}\ntasks {counts['insert']} done {counts['done']}\n"
        f"messages {counts['send']} received {counts['recv']}\n"
        f"{f'generation {world.generation}{chr(10)}' if version == 2 else ''}{last if last != 'not' else 'not ended'}\n"
    )


def expected(command, text):
    """Returns the status of `sim` or `audit` for a text, and what it prints."""
    try:
        version, nodes, first, steps = read(text, command)
    except Wrong as wrong:
        return 2, f"syntax line {wrong.args[0]}\n"
    return (0, simulated(nodes, steps)) if command == "sim" else audited(version, nodes, first, steps)
