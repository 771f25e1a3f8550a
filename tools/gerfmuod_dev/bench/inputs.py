"""Pseudo-random inputs, always the same ones: cells, matrices, scripts and traces."""
import random
from collections import deque

NODES = 8
# lines between two drains, in which all work but one message ends and two waves are judged
STRETCH = 4_000
# the kinds of steps, and how often each is tried
KINDS = {"insert": 16, "supply": 24, "begin": 16, "done": 16, "send": 5, "receive": 6, "end": 6, "open": 3, "close": 3}

# steps that are refused, with a fresh number
REFUSED = ["supply {}", "begin {}", "done {}", "insert 8 {} 1", "close 0 999999", "recv 0 999999", "send 3 3 {}", "up 0"]


def write_cells(out, count):
    generator = random.Random(3)
    out.writelines(f"{generator.randint(-10**9, 10**9)}\n" for _ in range(count))


def write_matrices(out, order):
    generator = random.Random(5)
    rows = [" ".join(str(generator.randint(-1000, 1000)) for _ in range(order)) for _ in range(2 * order)]
    out.write("\n".join([*rows[:order], "", *rows[order:], ""]))


class Writer:
    """Writes the lines of a text of 8 nodes, which are lawful except for those of `refused`."""

    def __init__(self, generator, is_trace):
        self.generator, self.is_trace = generator, is_trace
        self.lines = ["trace 1"] * is_trace + [f"nodes {NODES}"]
        self.pending, self.home = [1] * NODES, []
        # tasks with the number of their missing inputs, ready and running ones, actions, and messages that are sent, received and kept
        self.waiting, self.ready, self.running = deque(), [], []
        self.actions, self.under, self.received, self.anchor = [], deque(), [], []
        self.messages = self.opened = self.taken = self.waves = 0
        self.last = None

    def write(self, *parts):
        self.lines.append(" ".join(map(str, parts)))

    def take_any(self, items):
        place = self.generator.randrange(len(items))
        items[place], items[-1] = items[-1], items[place]
        return items.pop()

    def active(self):
        first = self.generator.randrange(NODES)
        return next((number % NODES for number in range(first, first + NODES) if self.pending[number % NODES]), None)

    def wait(self, task, inputs):
        self.waiting.append((task, inputs)) if inputs else self.ready.append(task)

    def insert(self):
        node, inputs, task = self.active(), self.generator.choice([0, 1, 1, 2, 2, 3]), len(self.home)
        if node is not None:
            self.write("insert", node, task, inputs)
            self.pending[node] += 1
            self.home.append(node)
            self.wait(task, inputs)

    def supply(self):
        if self.waiting:
            task, inputs = self.waiting.popleft()
            self.write("supply", task)
            self.wait(task, inputs - 1)

    def begin(self):
        if self.ready:
            self.running.append(self.take_any(self.ready))
            self.write("begin", self.running[-1])

    def done(self):
        if self.running:
            task = self.take_any(self.running)
            self.write("done", task)
            self.pending[self.home[task]] -= 1

    def send(self):
        node = self.active()
        if node is not None:
            self.under.append(((node + self.generator.randrange(1, NODES)) % NODES, self.messages))
            self.write("send", node, *self.under[-1])
            self.messages += 1

    def receive(self):
        if self.under:
            self.received.append(self.under.popleft())
            self.write("recv", *self.received[-1])
            self.pending[self.received[-1][0]] += 1
            self.taken += 1

    def open(self):
        node = self.active()
        if node is not None:
            self.actions.append((node, self.opened))
            self.write("open", *self.actions[-1])
            self.pending[node] += 1
            self.opened += 1

    def finish(self, word, things):
        """Ends an action, or the handling of a message."""
        if things:
            node, number = self.take_any(things)
            self.write(word, node, number)
            self.pending[node] -= 1

    def end(self):
        self.finish("end", self.received)

    def close(self):
        self.finish("close", self.actions)

    def refused(self):
        """Writes a step that is refused in every state."""
        self.write(self.generator.choice(REFUSED).format(len(self.home)))

    def drain(self, left):
        """Ends everything except for this number of messages, and writes two waves."""
        self.received += self.anchor
        self.anchor = []
        while len(self.under) > left:
            self.receive()
        ends = (self.received, self.end), (self.actions, self.close), (self.waiting, self.supply)
        for items, step in (*ends, (self.ready, self.begin), (self.running, self.done)):
            while items:
                step()
        for _ in range(2):
            self.wave()

    def wave(self):
        sums = self.messages, self.taken
        claim = f"ended {self.waves}" if self.last == sums and sums[0] == sums[1] else "not"
        self.lines += ["start", *(f"down {node}" for node in range(1, NODES))]
        self.lines += [f"{step} {node}" for node in reversed(range(1, NODES)) for step in ("give", "up")]
        self.lines += ["give 0", f"judge {claim}" if self.is_trace else "judge"]
        self.waves, self.last = self.waves + 1, sums


def busy(writer, lines):
    steps = [getattr(writer, kind) for kind in KINDS]
    while len(writer.lines) < lines:
        if not writer.is_trace and writer.generator.random() < 0.08:
            writer.refused()
        else:
            writer.generator.choices(steps, KINDS.values())[0]()


def write_all_steps(out, lines, is_trace):
    writer = Writer(random.Random(7), is_trace)
    busy(writer, STRETCH)
    for node in range(NODES):
        writer.write("ready", node)
        writer.pending[node] -= 1
    while len(writer.lines) < lines:
        busy(writer, len(writer.lines) + STRETCH)
        if not writer.under:
            writer.send()
        writer.drain(1)
        # a message that is received and not ended keeps its node active
        writer.receive()
        writer.anchor, writer.received = writer.received, []
    writer.drain(0)
    out.writelines(f"{line}\n" for line in writer.lines)


def write_task_steps(out, lines):
    writer = Writer(random.Random(7), False)
    steps = [writer.insert, writer.supply, writer.begin, writer.done, writer.refused]
    while len(writer.lines) < lines:
        writer.generator.choices(steps, [20, 30, 21, 21, 8])[0]()
    out.writelines(f"{line}\n" for line in writer.lines)
