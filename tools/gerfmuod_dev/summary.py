"""Prints the summary of a file of trace events: for what share of its time each thread ran bodies, waited, and did the rest.

The file is one of a team of C (its rows are threads; the rest is the runtime), of `tp run --profile` and `samples` (nodes, of
the time of all their workers; the rest is waiting and the runtime), of uts_mpi.c or of `samples draw run` (tracks; what is
counted are the kinds of their slices). The last line has the time of the run, and the length of the critical path if the
file has it. The status is 1 if the file is not in the Trace Event Format.
"""
import collections
import os
import sys

from . import event_format
from .repository import text_of

LABELS = {"task": "bodies", "wait": "waiting"}
# a thread, a node or a track: its name, its number of tasks, and the microseconds of each kind and in all
Row = collections.namedtuple("Row", "name tasks parts time")


def rows_of_slices(profile, elapsed):
    about, processes, time = profile.about, profile.processes, elapsed
    if is_by_node := "workers" in about:
        time *= about["workers"] * about["nodes"] / max(1, len(processes))
        names = {(pid, 0): name for pid, name in processes.items()}
    else:
        names = {track: f"{processes.get(track[0], track[0])}, {name}" for track, name in profile.threads.items()}
    parts = collections.defaultdict(collections.Counter, {key: collections.Counter() for key in names})
    tasks = collections.Counter()
    for event in profile.slices:
        key, kind = (event["pid"], 0 if is_by_node else event["tid"]), event.get("cat") or event["name"].split()[0]
        parts[key][LABELS.get(kind, kind)] += event["dur"]
        tasks[key] += kind == "task"
    return [Row(names.get(key, "without a name"), tasks[key], parts[key], time) for key in sorted(parts)]


def summary(text):
    profile = event_format.Profile(text)
    about, ends = profile.about, [event["ts"] + event["dur"] for event in profile.slices]
    elapsed, is_team = about.get("elapsed_us", max(ends, default=0)), isinstance(about.get("workers"), list)
    rows = [] if is_team else rows_of_slices(profile, elapsed)
    for worker in about["workers"] if is_team else ():
        # (the sums also have the slices that were lost)
        parts = {"bodies": worker["bodies_us"], "waiting": worker["waiting_us"]}
        rows.append(Row(f"thread {worker['thread']}", worker["tasks"], parts, sum(parts.values()) + worker["runtime_us"]))
    kinds = list(dict.fromkeys(kind for row in rows for kind in row.parts))
    width = max((len(row.name) for row in rows), default=0)
    heads = "".join(f" {head:>9}" for head in [*kinds, "runtime" if is_team else "rest"])
    lines = [f"{'':{width}} {'tasks':>8}{heads}"]
    for row in rows:
        parts = [row.parts.get(kind, 0.0) for kind in kinds]
        shares = (part / row.time if row.time else 0.0 for part in (*parts, row.time - sum(parts)))
        lines.append(f"{row.name:{width}} {row.tasks:8}" + "".join(f" {share:>9.1%}" for share in shares))
    critical = f", of which the critical path takes {about['critical_path_us'] / 1000:.3f} ms" if "critical_path_us" in about else ""
    has_times = not about.get("clock", "").startswith("none")
    lines.append(f"{elapsed / 1000:.3f} ms{critical}" if has_times else f"{elapsed:.0f} events, without times")
    lost = sum(about.get(f"lost_{things}", 0) for things in ("slices", "bodies", "events"))
    return [*lines, *[f"{lost} slices or events are not in the file"] * bool(lost)]


def arguments(parser):
    parser.add_argument("file", metavar="FILE", type=os.path.abspath, help="a file of trace events")


def run(options):
    try:
        text = text_of(options.file)
        if found := event_format.faults(text, has_one_clock=False):
            sys.exit(f"{options.file}: {found[0]}")
        print("\n".join(summary(text)))
    except (OSError, UnicodeError, LookupError, TypeError) as error:
        sys.exit(f"{options.file}: {error!r}")
    return 0
