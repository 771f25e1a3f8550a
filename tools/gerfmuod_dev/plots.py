"""Draws the plots of docs/figures with matplotlib, and the map of the crates with graphviz.

Plots are drawn from the rows of docs/measurements, runs of Cholesky from cholesky-run.csv and four-processes.csv there, and the map from
crates.txt and the table of docs/ARCHITECTURE.md. A file ends with a digest of what it shows and of the code that draws it; `make
test` compares these digests, without matplotlib and graphviz. `tools/bench-packages` prints the packages. The status is 1 if a
plot could not be drawn: a package is missing.
"""
import functools
import hashlib
import json
import math
import os
import re
import subprocess
import sys
from xml.dom import minidom

from . import repository
from .bench import figures
from .event_format import Profile
from .repository import TOP, text_of

# the rows of runs of Cholesky: on threads, and over MPI, as capi/mpi/graph_rows.c writes them
RUNS = {name: f"{TOP}/docs/measurements/{name.replace('sky', 'sky-run')}.csv" for name in ("cholesky", "four-processes")}
PAGE = "docs/ARCHITECTURE.md"
ROW = re.compile(r"^\|([^|\n]*)\| *([a-z]\w*) *\|([^|\n]*)\|[^|\n]*\|$", re.M)
# a colour for each group, in the order of crates.txt
FILLS = ["#e8e8e8", "#fde2b8", "#cfe3f7", "#d8efd0", "#e6dbf3", "#fbd5d5", "#d3ebea", "#f2f0c8", "#ffffff"]
GRAPH = "tools/data/crates.dot"
DIGEST = re.compile(r"<!-- digest of its inputs: (\w+) -->")


def check_map(tally):
    """Judges whether the table in docs/ARCHITECTURE.md has the crates of crates.txt, in the same groups and in the same order."""
    expected = [[title if name == names[0] else "", name] for title, names in repository.groups() for name in names]
    rows = [[first.strip(), crate] for first, crate, _ in ROW.findall(text_of(PAGE))]
    differing = [pair for pair in zip([*expected, None], [*rows, None]) if pair[0] != pair[1]][:1]
    tally.judge(not differing, f"{PAGE}: the table differs from crates.txt: {differing}")


def graph():
    """Returns the graph: a cluster for each group, a box for each crate, dashed in the second tier, and arrows that no others imply."""
    second_tier = {crate for _, crate, tier in ROW.findall(text_of(PAGE)) if tier.strip() == "safe"}
    lines = []
    for (title, names), fill in zip(repository.groups(), FILLS):
        lines.append(f'  subgraph "cluster {title}" {{\n    label="{title}" style=filled color="#f6f6f6"')
        for name in names:
            style = "rounded,filled,dashed" if name in second_tier else "rounded,filled"
            lines.append(f'    {name} [fillcolor="{fill}" style="{style}"]')
        lines.append("  }")
    for name, crate in repository.crates().items():
        implied = {lower for other in crate.below for lower in repository.crates([other]) if lower != other}
        lines += [f"  {name} -> {lower}" for lower in crate.below if lower not in implied]
    return text_of(GRAPH).replace("LINES", "\n".join(lines))


def tasks_of(tiles):
    """Returns the kernel of each task of cholesky.c, in their order, and the tasks that it waits for."""
    tasks, writers = [], {}
    for k in range(tiles):
        step = [("factor", (k, k)), *(("solve", (i, k), (k, k)) for i in range(k + 1, tiles))]
        for i in range(k + 1, tiles):
            step += [("square", (i, i), (i, k)), *(("product", (i, j), (i, k), (j, k)) for j in range(k + 1, i))]
        for kind, *used in step:
            inputs = [writers[place] for place in used if place in writers]
            writers[used[0]] = len(tasks)
            tasks.append((kind, inputs))
    return tasks


def critical_path(tasks, lengths):
    """Returns the tasks of the longest chain of bodies that wait for each other, and its length."""
    chains = []
    for (_, inputs), length in zip(tasks, lengths):
        path, before = max((chains[task] for task in inputs), key=lambda chain: chain[1], default=([], 0))
        chains.append(([len(chains), *path], before + length))
    return max(chains, key=lambda chain: chain[1])


def rows_of_run(events, tiles):
    """Returns the rows of a run with this number of tiles in a row, from its trace events; the first one is of the whole run."""
    profile, tasks = Profile(events), tasks_of(tiles)
    bodies = sorted((event["args"]["task"], event["tid"], event["ts"], event["dur"]) for event in profile.slices if "task" in event["args"])
    rows = [["thread", "task", "kind", "begin us", "length us"]]
    rows.append([len(profile.about["workers"]), len(tasks), "run", 0.0, profile.about["elapsed_us"]])
    rows += [[thread, task, tasks[task][0], begin, length] for task, thread, begin, length in bodies]
    return "".join(",".join(map(str, row)) + "\n" for row in rows)


def plot_of_run(text):
    """Returns what the plot of a run shows, in milliseconds. If a row has a number as its kind, it is a message to that process."""
    columns, *rows = (line.split(",") for line in text.splitlines())
    (lanes, count, *_, elapsed), *rows = ([int(row[0]), int(row[1]), row[2], *(float(time) / 1000 for time in row[3:])] for row in rows)
    # n tiles in a row have n (n + 1) (n + 2) / 6 tasks
    tasks = tasks_of(next(tiles for tiles in range(1, count + 1) if math.comb(tiles + 2, 3) == count))
    messages = [[lane, begin, int(to), begin + length] for lane, _, to, begin, length in rows if to.isdigit()]
    rows = [row for row in rows if not row[2].isdigit()]
    path, length = critical_path(tasks, [row[4] for row in rows])
    bodies = [[lane, tasks[task][0], begin, length, task in path] for lane, task, _, begin, length in rows]
    on = f"{lanes} processes, {len(messages)} messages" if messages else f"{lanes} threads"
    title = f"{count} tasks on {on}: {elapsed:.1f} ms; the critical path: {length:.1f} ms"
    runs = {"lane": columns[0], "bodies": bodies, "messages": messages, "elapsed": elapsed, "title": title}
    return {"kind": "lanes", "names": ["factor", "solve", "square", "product"], **runs}


# each plot with a function that returns what it shows, or nothing; the map is text for `dot`
PLOTS = {name: functools.partial(figures.plot_of, name) for name in figures.PLOTS}
PLOTS.update({name: lambda path=path: plot_of_run(text_of(path)) for name, path in RUNS.items()}, crates=graph)


def digest_of(plot):
    code = text_of(f"{os.path.dirname(os.path.abspath(__file__))}/drawing.py")
    text = plot if isinstance(plot, str) else json.dumps(plot, sort_keys=True) + code
    return hashlib.sha256(text.encode()).hexdigest()[:32]


def draw(plot, path):
    if isinstance(plot, str):
        subprocess.run(["dot", f"-T{path[-3:]}", "-o", path], input=plot, text=True, check=True)
    else:
        # (only what draws needs matplotlib)
        from . import drawing

        drawing.draw(plot, path)
    with open(path, "a", encoding="utf-8") as file:
        file.write(f"<!-- digest of its inputs: {digest_of(plot)} -->\n")


def write(names=PLOTS):
    """Draws these plots; returns how many could not be drawn, and prints why. One of no rows is removed."""
    faults = 0
    for name in names:
        plot, path = PLOTS[name](), repository.figure(name)
        try:
            if plot:
                draw(plot, path)
            elif os.path.exists(path):
                os.remove(path)
        except (FileNotFoundError, ImportError, subprocess.CalledProcessError) as error:
            faults += 1
            print(f"{name} is not drawn: {error} (apt-get install $(tools/bench-packages))", file=sys.stderr)
    return faults


def check(tally, names=PLOTS):
    """Judges whether each plot is drawn from what is stored now."""
    for name in names:
        plot, path = PLOTS[name](), repository.figure(name)
        text, path = text_of(path, ""), os.path.relpath(path, repository.TOP)
        if plot:
            minidom.parseString(text or "<nothing/>")
        is_well = DIGEST.findall(text) == ([digest_of(plot)] if plot else [])
        tally.judge(is_well and bool(text) == bool(plot), f"{path} is not drawn from what is stored: tools/dev plot {name}")


def arguments(parser):
    parser.add_argument("names", nargs="*", metavar="NAME", help=f"all by default: {', '.join(PLOTS)}")


def run(options):
    if unknown := [name for name in options.names if name not in PLOTS]:
        options.parser.error(f"no plot: {' '.join(unknown)}")
    return 1 if write(options.names or PLOTS) else 0
