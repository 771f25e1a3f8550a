"""Compares what `tp sim` and `tp audit` do with stored, odd and random texts with the second model (second_model.py)."""
import ast
import copy
import random
import re

from .. import repository, running
from ..repository import text_of
from .second_model import COUNTS_OF, World, expected

FOLDERS = ("tools/data/scripts", "tools/data/traces")
# the texts that a test of test_whole cuts: each with its kind and the sum of the replies to its pieces
TEST = "crates/test_whole/src/cuts.rt"
ROW = re.compile(r'Kind::(Script|Trace),\s+b("(?:[^"\\]|\\.)*"),\s+([\d_]+),?\s*\)', re.S)
# what comes after `nodes 1`, or before it
ODD = [
    b"\r\nready 0\r\n", b"\nready 0\r\n", b"\nready \x000\n", b"\n\nready 0\n", b"\nready 0 \n", b"\nready  0\n", b"\nready\t0\n",
    b"\nready 00\n", b"\nready +0\n", b"\nsupply 1000000\n", b"\nReady 0\n", b"\nready \xd9\xa0\n", b"\nnodes 1\n",
    b"\nready " + b"9" * 300_000 + b"\n",
]
BEFORE = [b"\xef\xbb\xbf", b"\xef\xbb\xbftrace 1\n", b"\0" * 1_000_000, b"trace 1\n", b"script 1\n", b"script 2\n", b"trace 3\n"]
# what some of the outputs of random texts have
RARE = ["generation ", "generation 3", "unjustified", "Stranger"]


def try_all(tally, program, texts):
    """Runs the program on texts with their subcommands; returns the expected outputs."""

    def try_one(case):
        return case, expected(*case), running.run([program, case[0]], case[1])

    outputs = []
    for (command, text), (status, out), result in running.in_parallel(texts, try_one):
        details = f"status {result.status}, expected {status}\n{running.short(text, 5000)}\n--- printed:\n{running.short(result.out, 5000)}"
        is_well = result == running.Result(status, out.encode(), b"")
        tally.judge(is_well, f"{command}: {details}\n--- expected:\n{out}{running.short(result.err)}")
        outputs.append(out)
    return outputs


def sum_of_pieces(command, text):
    """Returns the sum (FNV-1a, 32 bits) of the expected output and status of each piece of a text, in this order."""
    total = 2_166_136_261
    for status, out in (expected(command, text[:count]) for count in range(len(text) + 1)):
        for byte in (*out.encode(), status):
            total = (total ^ byte) * 16_777_619 % 2**32
    return total


def helpful_steps(version, world):
    """Yields the steps that bring the pool nearer to its end, and then to its reopening."""
    generation = (world.generation,) if version == 2 else ()
    for task, life in world.life.items():
        yield {"ready": "begin", "running": "done"}.get(life, "supply"), task
    for message, node in world.under.items():
        yield "recv", node, message, *generation
    for kind, node, number in sorted(world.actions):
        yield {"opening": ("ready", node), "named": ("close", node, number), "message": ("end", node, number, *generation)}[kind]
    yield from [("start",), ("judge",)]
    for node in range(world.nodes):
        yield from [("give", node), ("down", node), ("up", node)]
    if version == 2:
        yield ("reopen",)


def random_steps(generator, version, nodes, count):
    world, steps = World(nodes), []
    while len(steps) < count:
        name = generator.choice([*COUNTS_OF[version]])
        step = name, *(generator.randrange(4) for _ in range(COUNTS_OF[version][name]))
        if version == 2 and name in ("send", "recv", "end"):
            step = *step[:-1], generator.choice([world.generation] * 6 + [world.generation - 1, world.generation + 1])
        if generator.random() < 0.7:
            lawful = [other for other in helpful_steps(version, world) if not copy.deepcopy(world).take(other).startswith("refused")]
            step = generator.choice(lawful) if lawful else step
        steps.append((step, world.take(step)))
    return steps


def line(step, *more):
    return " ".join(map(str, (*step, *more))) + "\n"


def script(version, nodes, steps):
    return "script 2\n" * (version == 2) + f"nodes {nodes}\n" + "".join(line(step) for step, _ in steps)


def sound_trace(version, nodes, steps):
    accepted = [(step, reply) for step, reply in steps if not reply.startswith("refused")]
    lines = [line(step, *[reply] * (step == ("judge",))) for step, reply in accepted]
    return f"trace {version}\nnodes {nodes}\n" + "".join(lines)


def spoiled_trace(generator, version, nodes, steps):
    """Returns the same; sometimes with a refused step among them, or with a changed judgement."""
    kept = []
    for step, reply in steps:
        if reply.startswith("refused") and generator.random() < 0.03:
            reply = generator.choice(["not", "ended 1"])
        elif step == ("judge",) and generator.random() < 0.03:
            reply = generator.choice(["not", "ended 1", "ended 2"])
        kept.append((step, reply))
    return sound_trace(version, nodes, kept)


def damaged(generator, text):
    result = bytearray(text.encode())
    if generator.random() < 0.15:
        result[generator.randrange(len(result))] = generator.choice(b"0129 \n\rxjr")
    return bytes(result)


def random_texts(generator, count):
    for _ in range(count):
        version, nodes = generator.choice([1, 2]), generator.choice([1, 1, 2, 2, 3, 5])
        steps = random_steps(generator, version, nodes, generator.randrange(10, 160))
        yield "sim", damaged(generator, script(version, nodes, steps))
        yield "audit", damaged(generator, spoiled_trace(generator, version, nodes, steps))


def cuts(tally, options, _):
    """Cuts each stored script and trace after each of its bytes.

    The program's output and status for each piece, and for odd texts such as one with carriage returns, are compared with those of a
    second model, and so are the sums of the texts that a test of `test_whole` cuts. Prints each text for which they differ.
    """
    for kind, literal, total in ROW.findall(text_of(TEST)):
        # (a backslash at the end of a line joins it with the next)
        text = ast.literal_eval(re.sub(r"\\\n\s*", "", literal)).encode()
        found = sum_of_pieces({"Script": "sim", "Trace": "audit"}[kind], text)
        tally.judge(int(total) == found, f"{TEST}: the sum of the {kind.lower()} {running.short(text)} has to be {found}")
    stored = [text_of(path).encode() for folder in FOLDERS for path in repository.files_in(folder)]
    texts = [("audit" if text.startswith(b"trace") else "sim", text[:count]) for text in stored for count in range(len(text) + 1)]
    odd = [*(b"nodes 1" + text for text in ODD), *(head + b"nodes 1\n" for head in BEFORE)]
    texts += [(command, head + text) for text in odd for command, head in (("sim", b""), ("audit", b"trace 1\n"), ("audit", b""))]
    try_all(tally, options.tp, texts)


def random_cases(tally, options, _):
    """Creates random scripts and traces of both versions.

    The program's output and status are compared with those of a second model. Half of a script's steps are lawful ones, so that pools
    end and are reopened; the others may be of any kind and number. What is rare has to come in some output.
    """
    texts = [*random_texts(random.Random(options.seed), options.texts)]
    # (a script and a trace of one node that is reopened again and again)
    for command, head, judgements in ("sim", "script 2", ("", "")), ("audit", "trace 2", (" not", " ended 1")):
        waves = "".join(f"start\ngive 0\njudge{judgement}\n" for judgement in judgements)
        texts.append((command, (f"{head}\nnodes 1\n" + f"ready 0\n{waves}reopen\n" * 100).encode()))
    outputs = try_all(tally, options.tp, texts)
    for rare in RARE:
        tally.judge(any(rare in output for output in outputs), f"no output has {rare!r}: more texts or another seed?")
