"""Tries the trace events that `samples draw run` writes, and the times of runs.

Has the program write 40 random runs as events, and a long one. Each file has to be as the Trace Event Format says (event_format.py), and to
have each task, end of a message and wave of the trace once, at the time of its line, and no other. Then the programs run with
`--profile FILE`: each file has to have each task of the run once, in time, and counters that rise to the numbers of the run (profiles.py),
and `tools/dev summary` has to find them. If Chromium is installed (`tools/page-packages` prints its package), a viewer of its DevTools has
to find the slices of all files (browser.py).
"""
import collections
import io
import json
import random

from . import browser, event_format, profiles, repository, tries
from .bench import inputs
from .limits.texts import random_steps, sound_trace

# the number of random runs, and of the lines of a long one: as many as fit into what `rt try` takes of a program that is not built
RUNS, LINES = 40, 4_000
# for a line of a trace the phase of its event, its name, and which number of the line belongs to that
SHOWN = {"begin": ("X", "task", 0), "send": ("s", "message", 2), "recv": ("f", "message", 1)}
# a run: its program and arguments, its number of tasks, its input, how often each task runs, and whether the file numbers them
Case = collections.namedtuple("Case", "program arguments tasks text times has_numbers", defaults=["", 1, True])
CASES = {name: Case(**row) for name, row in json.loads(repository.text_of(f"{repository.TOP}/tools/data/profiles.json")).items()}


def traces():
    """Returns the traces of random runs by name: half of them quickly end and are reopened, half are busy and cut off; and a long one."""
    generator, found, long = random.Random(7), {}, io.StringIO()
    for number in range(RUNS // 2):
        version, nodes = generator.choice([1, 2]), generator.choice([1, 2, 3, 5, 8])
        found[f"short-{number:02}"] = sound_trace(version, nodes, random_steps(generator, version, nodes, generator.randrange(20, 300)))
        writer = inputs.Writer(generator, True)
        inputs.busy(writer, generator.randrange(100, 600))
        found[f"busy-{number:02}"] = "".join(f"{line}\n" for line in writer.lines)
    inputs.write_all_steps(long, LINES, True)
    return {**found, "long": long.getvalue()}


def written(texts, folder):
    """Has the program write traces as events, and the times of runs; returns what it printed of each trace, and all results."""
    drawn = {name: tries.Case(["draw", "run", "--format", "events"], text.encode()) for name, text in texts.items()}
    results = tries.run_cases("samples", {**drawn, **cases_of("samples", folder)})
    return {name: results[name][1] for name in texts if results.get(name, (None,))[0] == 0}, results


def shown_in(trace):
    """Yields the phase, the name and the time of each task, end of a message and wave of a trace."""
    wave = 0
    for time, line in enumerate(trace.splitlines()[2:], 1):
        word, *numbers = line.split()
        wave = 0 if word == "reopen" else wave + (line == "give 0")
        if word in SHOWN:
            phase, name, place = SHOWN[word]
            yield phase, f"{name} {numbers[place]}", time
        elif line == "give 0":
            yield "i", f"wave {wave}", time


def check_events(tally, texts, outputs):
    total = 0
    for name, trace in texts.items():
        text, expected = outputs.get(name, ""), collections.Counter(shown_in(trace))
        faults = event_format.faults(text)
        tally.judge(not faults, f"{name}: not in the Trace Event Format: {faults[:3]}")
        events = event_format.Profile(text or '{"traceEvents": []}').events
        shown = [(phase, event["name"], event["ts"]) for phase in "Xsfi" for event in events[phase]]
        found = collections.Counter(key for key in shown if key[1].startswith(("task ", "message ", "wave ")))
        differing = [*(expected - found), *(found - expected)]
        tally.judge(not differing, f"{name}: {differing[:3]} differ from this trace: {trace}")
        total += sum(expected.values())
    print(f"{len(texts)} runs as events: {total} tasks, ends of messages and waves", flush=True)


def cases_of(program, folder):
    """Returns the runs of a program by name, each with its times written to a file of this folder."""
    own = {name: case for name, case in CASES.items() if case.program == program}
    return {name: tries.Case([*case.arguments.split(), "--profile", f"{folder}/{name}"], case.text.encode()) for name, case in own.items()}


def check_runs(tally, folder, results):
    """Checks what the runs have written to a folder, after those of `samples`, whose results are given; returns the texts by case."""
    results = {**results, **tries.run_cases("tp", cases_of("tp", folder))}
    texts = {name: repository.text_of(f"{folder}/{name}", "") for name in CASES}
    for name, case in CASES.items():
        found = profiles.faults(texts[name], profiles.run_faults, case, texts[name])
        tally.judge(not found, f"--profile of {name}: {found[:3]}, {str(results.get(name))[:1000]}")
    print(f"{len(CASES)} runs with times", flush=True)
    return {name: text for name, text in texts.items() if text}


def run(options):
    tally, texts = options.tally, traces()
    outputs, results = written(texts, options.temporary)
    check_events(tally, texts, outputs)
    timed = check_runs(tally, options.temporary, results)
    if browser.is_here(tally, "the events of runs in its DevTools"):
        with browser.Browser() as chromium:
            browser.check_events(tally, chromium, {**outputs, **timed})
