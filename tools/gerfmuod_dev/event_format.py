"""Reads texts in the Trace Event Format, and checks them: the JSON Object Format, and what an importer needs to place each event.

Strict JSON: no key twice, no NaN. Each event has the fields that its phase requires, of their types, and no other one. The
slices of a track nest. A flow begins once and ends at most once, not earlier, each time in a slice of its track; of two
events at one time, the slice comes first in the file.
"""
import bisect
import collections
import json
import math
import re

TOP_LEVEL = {"traceEvents": list, "displayTimeUnit": str, "otherData": dict}
# for each phase what an event has to have, and what it may have
FIELDS = {
    "X": ("name pid tid ts dur", "cat args"),
    "i": ("name pid tid ts s", "cat args"),
    "C": ("name pid ts args", "cat tid id"),
    "s": ("name cat pid tid ts id", "args bp"),
    "f": ("name cat pid tid ts id bp", "args"),
    "M": ("name pid args", "cat tid ts"),
}
# for each kind of metadata the field of its arguments
METADATA = {"process_name": "name", "thread_name": "name", "process_sort_index": "sort_index", "thread_sort_index": "sort_index"}


class Profile:
    """The events of a text by phase, the slices among them, what `otherData` says, and the names of processes and threads."""

    def __init__(self, text):
        content = json.loads(text)
        self.about, self.events = content.get("otherData", {}), collections.defaultdict(list)
        for event in content["traceEvents"]:
            self.events[event["ph"]].append(event)
        self.slices = self.events["X"]
        self.processes, self.threads = {}, {}
        for event in self.events["M"]:
            if event["name"] == "process_name":
                self.processes[event["pid"]] = event["args"]["name"]
            elif event["name"] == "thread_name":
                self.threads[event["pid"], event.get("tid", 0)] = event["args"]["name"]


def is_time(value):
    return type(value) in (int, float) and math.isfinite(value) and value >= 0


def is_whole(value):
    return type(value) is int and 0 <= value < 2**31


VALID = {
    **dict.fromkeys(("name", "cat"), lambda value: isinstance(value, str) and value),
    "pid": is_whole, "tid": is_whole, "ts": is_time, "dur": is_time,
    "s": lambda value: value in ("g", "p", "t"),
    "bp": lambda value: value == "e",
    # (the format allows any text, but some importers only take numbers)
    "id": lambda value: isinstance(value, str) and re.fullmatch("0x[0-9a-f]{1,16}", value) or is_whole(value),
    "args": lambda value: isinstance(value, dict),
}


def once(pairs):
    """Returns the object of these pairs of a JSON text, which has each key once."""
    found = dict(pairs)
    if len(found) < len(pairs):
        raise ValueError(f"a key comes twice: {[key for key, _ in pairs]}")
    return found


def field_faults(event):
    if not isinstance(event, dict) or event.get("ph") not in FIELDS:
        yield f"no event of a known phase: {event}"
        return
    required, possible = (set(names.split()) for names in FIELDS[event["ph"]])
    keys, arguments = event.keys() - {"ph"}, event.get("args")
    if not required <= keys <= required | possible:
        yield f"missing {sorted(required - keys)}, unknown {sorted(keys - required - possible)}: {event}"
    if invalid := [key for key in keys & VALID.keys() if not VALID[key](event[key])]:
        yield f"{invalid} not valid: {event}"
    if event["ph"] == "C" and not (isinstance(arguments, dict) and arguments and all(map(is_time, arguments.values()))):
        yield f"a counter without numbers: {event}"
    if event["ph"] == "M" and list(arguments or {}) != [METADATA.get(event.get("name"))]:
        yield f"metadata of an unknown kind, or without its value: {event}"


def nanoseconds(microseconds):
    """Returns a time of a file, which has three decimals, as a whole number."""
    return round(microseconds * 1000)


def overlaps(slices):
    """Yields each slice of a track that begins in another one and ends after it."""
    ends = []
    for begin, minus_end, _ in slices:
        while ends and ends[-1] <= begin:
            ends.pop()
        if ends and -minus_end > ends[-1]:
            yield f"a slice from {begin} to {-minus_end} overlaps one that ends at {ends[-1]}"
        ends.append(-minus_end)


def has(slices, at, place):
    """Whether a slice that is open at this time, or begins then, comes before this place of the file."""
    last = bisect.bisect_right(slices, (at, math.inf))
    return any(begin < at < -minus_end or begin == at and first < place for begin, minus_end, first in reversed(slices[:last]))


def placing_faults(events, has_one_clock):
    """Yields what is wrong with where events whose fields are valid are shown."""
    # of each track the slices in the order of their times, a longer one first: begin, minus the end, and the place in the file
    tracks, flows, names = collections.defaultdict(list), collections.defaultdict(lambda: {"s": [], "f": []}), collections.Counter()
    for place, event in enumerate(events):
        if event["ph"] == "X":
            begin = nanoseconds(event["ts"])
            bisect.insort(tracks[event["pid"], event["tid"]], (begin, -begin - nanoseconds(event["dur"]), place))
        elif event["ph"] == "M":
            names[event["name"], event["pid"], event.get("tid") if event["name"].startswith("thread") else None] += 1
    for slices in tracks.values():
        yield from overlaps(slices)
    yield from (f"{name} comes {count} times" for name, count in names.items() if count > 1)
    for place, event in enumerate(events):
        if event["ph"] in "sf":
            at = nanoseconds(event["ts"])
            flows[event["cat"], event["name"], event["id"]][event["ph"]].append(at)
            if not has(tracks[event["pid"], event["tid"]], at, place):
                yield f"an end of a flow that is in no slice: {event}"
    for flow, ends in flows.items():
        if len(ends["s"]) != 1 or len(ends["f"]) > 1 or has_one_clock and ends["f"] and ends["f"] < ends["s"]:
            yield f"flow {flow} begins at {ends['s']}, ends at {ends['f']}"


def faults(text, has_one_clock=True):
    """Returns what is wrong with a text, as lines. If the times come from several clocks, flows may end before they begin."""
    try:
        # (int refuses NaN)
        content = json.loads(text, object_pairs_hook=once, parse_constant=int)
    except ValueError as error:
        return [f"not JSON: {error}"]
    if not isinstance(content, dict) or not isinstance(content.get("traceEvents"), list):
        return ["no object with a list traceEvents"]
    found = [f"{key} is unknown, or of a wrong type" for key, value in content.items() if not isinstance(value, TOP_LEVEL.get(key, ()))]
    if content.get("displayTimeUnit", "ns") not in ("ms", "ns"):
        found.append(f"the unit of time is {content['displayTimeUnit']}")
    found += [fault for event in content["traceEvents"] for fault in field_faults(event)]
    return found or list(placing_faults(content["traceEvents"], has_one_clock))


def spoiled(text):
    """Yields texts with one fault each, for a text with slices, flows, an instant and metadata."""
    content = json.loads(text)
    events = content["traceEvents"]
    first = {phase: next(place for place, event in enumerate(events) if event["ph"] == phase) for phase in "XsfiM"}
    for phase, key, value in (
        ("s", "id", []), ("f", "id", ""), ("M", "args", {}),
        *((phase, key, None) for phase in "Xsfi" for key in FIELDS[phase][0].split()),
        ("X", "ts", "1"), ("X", "dur", -1), ("X", "dur", True), ("X", "unknown", 1), ("i", "s", "x"), ("f", "bp", "x"), ("s", "id", "lost"),
        ("s", "ts", 1e9), ("f", "tid", 99), ("X", "ph", "Y"), ("X", "args", [1]), ("i", "pid", -1), ("i", "pid", "1"), ("f", "ts", 0),
    ):
        event = {**events[first[phase]], key: value}
        if value is None:
            del event[key]
        yield json.dumps({**content, "traceEvents": [*events[: first[phase]], event, *events[first[phase] + 1:]]})
    overlapping = events[first["X"]]
    overlapping = {**overlapping, "ts": overlapping["ts"] + overlapping["dur"] / 2}
    for more in (events[first["s"]], overlapping, {"ph": "C", "name": "c", "pid": 0, "ts": 0, "args": {}}):
        yield json.dumps({**content, "traceEvents": [*events, more]})
    yield json.dumps({**content, "displayTimeUnit": "s"})
    yield text.replace('"ts":', '"ts":NaN,"was":', 1)
    yield text.replace('"ph":', '"ph":"X","ph":', 1)
    yield json.dumps(events)
    yield text[:-4]
