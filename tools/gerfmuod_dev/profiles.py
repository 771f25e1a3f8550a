"""Checks trace events with times: of a team of C, of uts_mpi.c, and of `tp run` and `samples` with `--profile FILE`."""
import collections
import json
import math
import re

from . import event_format, summary
from .event_format import Profile, nanoseconds


def faults(text, faults_of, *details, has_one_clock=True):
    """Returns what is wrong with a file by its format and by a check of its events, which gets these details, as lines."""
    try:
        return event_format.faults(text, has_one_clock) or list(faults_of(Profile(text), *details))
    except (ValueError, KeyError, IndexError) as error:
        return [f"not the events of a run: {error!r}"]


def turn_faults(slices, elapsed=math.inf):
    """Yields each slice that begins before the one before it on its track has ended, or that ends after the run."""
    ends = collections.Counter()
    for event in slices:
        track, begin = (event["pid"], event["tid"]), nanoseconds(event["ts"])
        if begin < ends[track]:
            yield f"{event} begins before {ends[track]}"
        ends[track] = begin + nanoseconds(event["dur"])
        if ends[track] > elapsed:
            yield f"{event} ends after the run, {elapsed}"


def team_faults(profile, trace=""):
    """Yields what is wrong with the times, the sums of each thread, and the tasks, compared with the run's trace if there is one."""
    elapsed, critical = (nanoseconds(profile.about.get(key, 0)) for key in ("elapsed_us", "critical_path_us"))
    yield from turn_faults(profile.slices, elapsed)
    if critical > elapsed:
        yield f"the critical path takes {critical}, the run {elapsed}"
    for worker in profile.about["workers"]:
        own = [event for event in profile.slices if event["tid"] == worker["thread"] + 1]
        for key, is_body in ("bodies_us", True), ("waiting_us", False):
            parts = [nanoseconds(event["dur"]) for event in own if ("task" in event["args"]) == is_body]
            if not worker["lost_slices"] and abs(nanoseconds(worker[key]) - sum(parts)) > len(parts) + 1:
                yield f"{key} of {worker}: the sum is {sum(parts)}"
    tasks = sorted(event["args"]["task"] for event in profile.slices if "task" in event["args"])
    begun = sorted(map(int, re.findall(r"^begin (\d+)", trace, re.M)))
    if len({*tasks}) < len(tasks) or trace and tasks != begun:
        yield f"the tasks are {tasks}, those of the trace {begun}"


def process_faults(profile, processes):
    """Yields what is wrong with a search over MPI: each process has all waves in turn, and knows the end once, after two equal sums."""
    waves = [[event["args"] for event in profile.slices if (event["pid"], event["tid"]) == (rank, 2)] for rank in range(processes)]
    sums = [(wave["sent"], wave["received"]) for wave in waves[0]]
    equal = [place for place, pair in enumerate(zip(sums, sums[1:])) if len({*pair[0], *pair[1]}) == 1]
    numbers, known = [[wave["wave"] for wave in own] for own in waves], sorted(event["pid"] for event in profile.events["i"])
    sent, received = (sorted(event["id"] for event in profile.events[phase]) for phase in "sf")
    yield from turn_faults(profile.slices)
    for is_well, fault in (
        (equal == [len(sums) - 2], f"the sums of the waves at process 0 are {sums}"),
        (numbers == [[*range(1, len(sums) + 1)]] * processes, f"the waves at the processes are {numbers}"),
        (known == [*range(processes)], f"the end is known at {known}"),
        (sent == received and len({*sent}) == len(sent), f"the messages sent are {sent}, received {received}"),
    ):
        if not is_well:
            yield fault


def run_faults(profile, case, text):
    """Yields what is wrong with times, each node's counter, which rises in time, the bodies' numbers, and the shares of the summary."""
    about, slices, count = profile.about, profile.slices, case.tasks * case.times
    yield from turn_faults(sorted(slices, key=lambda event: event["ts"]), nanoseconds(about["elapsed_us"]))
    last = collections.defaultdict(lambda: (0, 0))
    for event in profile.events["C"]:
        before, now = last[event["pid"]], (event["args"]["done"], event["ts"])
        if now[0] <= before[0] or now[1] < before[1]:
            yield f"{event} after {before}"
        last[event["pid"]] = now
    bodies = collections.Counter(event["pid"] for event in slices)
    if {node: done for node, (done, _) in last.items()} != bodies:
        yield f"the counters end at {last}, the bodies are {bodies}"
    if (about["bodies"], about["lost_bodies"], len(slices)) != (count, 0, count):
        yield f"{len(slices)} slices, and the file says {about}"
    if nanoseconds(about["bodies_us"]) != sum(nanoseconds(event["dur"]) for event in slices):
        yield f"the bodies took {about['bodies_us']} us by the file, and another time by their slices"
    tasks = collections.Counter(event.get("args", {}).get("task") for event in slices)
    if case.has_numbers and tasks != dict.fromkeys(range(case.tasks), case.times):
        yield f"the tasks are {tasks}"
    rows = [[float(number) for number in re.findall(r"[\d.]+", row)[-3:]] for row in summary.summary(text)[1:-1]]
    if sum(tasks for tasks, _, _ in rows) != count or any(abs(one + other - 100) > 0.11 for _, one, other in rows):
        yield f"the summary has {rows}"


def spoiled(text):
    """Yields a team's text with one fault each: a body that is not there, comes twice, or lasts longer."""
    content = json.loads(text)
    events = content["traceEvents"]
    place, event = next(pair for pair in enumerate(events) if pair[1]["ph"] == "X" and pair[1]["cat"] == "task")
    for change in [], [event, event], [{**event, "dur": event["dur"] + 1e6}]:
        yield json.dumps({**content, "traceEvents": [*events[:place], *change, *events[place + 1:]]})
