"""The tables that are printed, and that docs/PERFORMANCE.md has between marks."""
import functools
import itertools
import re
import statistics
from typing import NamedTuple

from . import metg
from .cases import GRID_PLACES, LIBRARY_STEPS, MEASUREMENTS, PLACES, PRODUCT_PLACES, ROD_PLACES, TASKS
from .rows import Origin


def having(rows, **values):
    return [row for row in rows if all(getattr(row, name) == value for name, value in values.items())]


def found(rows, **values):
    return next(iter(having(rows, **values)), None)


def distinct(rows, field):
    return list(dict.fromkeys(getattr(row, field) for row in rows))


def ratio(one, other):
    return one / other if one and other else None


def cell(number, form="{:.2f}"):
    return "" if number is None else form.format(number)


def with_quartiles(row, form="{:.1f}"):
    return f"{form.format(row.milliseconds)} ({form.format(row.lower_quartile)}–{form.format(row.upper_quartile)})" if row else ""


def overlap(one, other):
    """Whether the quartiles of two times do not tell which one is less."""
    return one.lower_quartile <= other.upper_quartile and other.lower_quartile <= one.upper_quartile


def each_unit(row):
    return ratio(row.instructions, row.units) if row else None


def table(head, lines):
    first, *others = (f"| {' | '.join(cells)} |" for cells in [head, *lines])
    return "\n".join([first, "|" + "---|" * len(head), *others])


def pivot(head, lines, columns, cell_of):
    """Returns a table with a line for each of these keys, and a cell of the line's key and the column's for each column by its name."""
    return table([head, *columns], [[line, *(cell_of(line, key) for key in columns.values())] for line in lines])


def grid(head, rows, field, column_of, text_of):
    """Returns a table of rows: a line for each value of this field, a column for each name of one, and the text of the row there."""
    columns = dict.fromkeys(map(column_of, rows))
    texts_of_rows = {(getattr(row, field), column_of(row)): text_of(row) for row in rows}
    return pivot(head, distinct(rows, field), dict(zip(columns, columns)), lambda *key: texts_of_rows.get(key, ""))


def texts(rows):
    columns = {
        "nanoseconds a line": lambda row: row.milliseconds * 1e6 / row.units,
        "instructions a line": each_unit,
        "bytes of memory a line": lambda row: row.MiB * 2**20 / row.units,
    }

    def numbers(case, number_of):
        return ", ".join(f"{number:.0f}" for number in map(number_of, having(rows, case=case)) if number is not None)

    names = ", ".join(distinct(rows, "program"))
    return f"The whole process, in this order: {names}.\n\n{pivot('Text', distinct(rows, 'case'), columns, numbers)}"


def instructions_of_pools(rows):
    programs, lines = distinct([row for row in rows if row.instructions], "program"), []
    for pool, tasks in TASKS.items():
        counts = {name: each_unit(found(rows, case=pool, nodes=1, workers=1, program=name)) for name in programs}
        if any(counts.values()):
            by_hand = ratio(counts.get("tp"), counts.get("runtime by hand"))
            lines.append([pool, f"{tasks:,}", *(cell(count, "{:,.0f}") for count in counts.values()), cell(by_hand)])
    head = ["Pool", "tasks", *programs, "tp by runtime by hand"]
    title = "Instructions a task, the whole process at one node with one worker:"
    return [title, table(head, lines)] if lines else []


NO_DIFFERENCE = "no difference seen"


def ratio_text(middle, least, most):
    return NO_DIFFERENCE if least <= 1 <= most else f"{middle:.2f} ({least:.2f}–{most:.2f})"


def ratio_of_rows(median, lower, upper, tp, other):
    """Returns the ratio of two rows with its quartiles, of a number whose median and quartiles are in these fields."""
    ratios = [ratio(getattr(tp, own), getattr(other, its)) for own, its in ((median, median), (lower, upper), (upper, lower))]
    return ratio_text(*ratios) if all(ratios) else ""


TIME = functools.partial(ratio_of_rows, "milliseconds", "lower_quartile", "upper_quartile")
PROCESSOR_TIME = functools.partial(ratio_of_rows, "processor_milliseconds", "processor_lower_quartile", "processor_upper_quartile")


def by_places(rows, title, cell_of):
    """Returns a title, and a line for each pool, with a cell for tp's row and the row of the hand-written runtime at each place."""

    def cell_at(pool, place):
        pair = [found(rows, case=pool, where=place, program=program) for program in ("tp", "runtime by hand")]
        return cell_of(*pair) if all(pair) else ""

    places = [place for place in map("{0[0]} by {0[1]}".format, PLACES) if having(rows, where=place)]
    return f"{title}:\n\n{pivot('Pool', distinct(rows, 'case'), dict(zip(places, places)), cell_at)}"


def times(rows, busy=""):
    return by_places(rows, f"Time of a run of tp by that of the runtime by hand{busy}", TIME)


def pools(rows):
    rows = having(rows, load=0)
    return "\n\n".join([*instructions_of_pools(rows), times(rows)])


def more_of_pools(rows):
    """Returns what else was measured: processor time and context switches, and all of it on a machine that has other work."""

    def switches(*pair):
        return ", ".join(f"{row.context_switches / row.units:.2f}" for row in pair)

    parts, what = [], "Processor time of a run of tp by that of the runtime by hand{}, with a part of the process's start"
    for load in distinct(rows, "load"):
        own, busy = having(rows, load=load), f", next to {load} busy processes" if load else ""
        parts += [times(own, busy)] if load else []
        parts.append(by_places(own, what.format(busy), PROCESSOR_TIME))
        parts.append(by_places(own, f"Context switches a task, of tp and of the runtime by hand{busy}", switches))
    return "\n\n".join(parts)


def smallest_tasks(rows, places):
    """Returns a line for each pattern, with METG(50%) of each program at the places at which it was measured."""
    columns = {}
    for name in distinct(rows, "program"):
        for nodes, workers in places:
            if having(rows, program=name, nodes=nodes, workers=workers):
                columns[f"{name}, {nodes} by {workers}" if len(places) > 1 else name] = name, nodes, workers

    def size(pattern, column):
        return metg.spelt_by_quartiles(lambda time: metg.curve(rows, pattern, *column, time))

    return pivot("Pattern", metg.patterns_of(rows), columns, size)


def grids(rows):
    parts = ["One worker, METG(50%) in microseconds:", smallest_tasks(rows, GRID_PLACES[:1])]
    return "\n\n".join([*parts, "Four workers, likewise:", smallest_tasks(rows, GRID_PLACES[1:])])


def kernels(rows):
    own = {program: [row.kernel_nanoseconds for row in having(rows, program=program)] for program in distinct(rows, "program")}
    columns = {"least": min, "median": statistics.median, "most": max}
    title = "Nanoseconds an iteration, by one task of many, timed again for each pattern and size:\n\n"
    return title + pivot("Program", own, columns, lambda program, number_of: cell(number_of(own[program])))


def milliseconds(places, rows):
    """Returns a table for each case, with a line for each program: its time at each place, and its memory at the last."""
    parts = []
    for case in distinct(rows, "case"):
        lines = []
        for program in distinct(having(rows, case=case), "program"):
            own = having(rows, case=case, program=program)
            here = [found(own, nodes=nodes, workers=workers) for nodes, workers in places]
            counted = next(filter(None, map(each_unit, own)), None)
            lines.append([program, *map(with_quartiles, here), f"{own[-1].MiB:.0f}", cell(counted, "{:.1f}")])
        whose = "a run" if rows[0].runs else "the whole process"
        head = [f"Milliseconds of {whose} (quartiles)", *map("{0[0]} by {0[1]}".format, places), "MiB", f"instructions a {rows[0].unit}"]
        parts += [f"{case[0].upper()}{case[1:]}:", table(head, lines)]
    return "\n\n".join(parts)


BODY_PLACES = [("heat", 1, 4), ("heat", 2, 2), ("heat", 4, 1), ("oneTBB flow graph", 1, 4), ("OpenMP tasks", 1, 4)]


class Body(NamedTuple):
    """A size of blocks: microseconds of a body with one worker by program, and at each place the speed-up with its quartiles."""

    block: str
    microseconds: dict
    speed_ups: dict


def bodies(rows):
    found = {}
    for row in rows:
        block = found.setdefault(row.case, Body(row.case.split(", ")[0].replace("blocks of ", ""), {}, {}))
        if alone := having(rows, case=row.case, program=row.program, where="1 by 1"):
            block.microseconds[row.program] = alone[0].milliseconds * 1000 / alone[0].units
            fields = ("milliseconds",) * 2, ("lower_quartile", "upper_quartile"), ("upper_quartile", "lower_quartile")
            speed_ups = [getattr(alone[0], own) / getattr(row, its) for own, its in fields]
            block.speed_ups[row.program, row.nodes, row.workers] = speed_ups
    return list(found.values())


def twice_as_fast(sizes, place):
    """Returns the microseconds of the smallest body from which on all are twice as fast at a place, and whether some below are, too."""
    length, smaller = None, list(sizes)
    while smaller and smaller[-1].speed_ups.get(place, [0])[0] >= 2:
        length = smaller.pop().microseconds[place[0]]
    some = ", and some below" * any(size.speed_ups.get(place, [0])[0] >= 2 for size in smaller)
    return f"{length:.1f}{some}" if length else f"none{some.replace('below', 'sizes')}"


def body(rows):
    sizes, lines = bodies(rows), []
    for size in sizes:
        ratios = [ratio_text(*size.speed_ups[place]) if place in size.speed_ups else "" for place in BODY_PLACES]
        lines.append([size.block, cell(size.microseconds.get("heat"), "{:.1f}"), *ratios])
    lines.append(["twice as fast from", "", *(twice_as_fast(sizes, place) for place in BODY_PLACES)])
    names = [f"{name}, {nodes} by {workers}" for name, nodes, workers in BODY_PLACES]
    title = (
        "How many times as fast as one worker of the same program (quartiles). The last line has, in microseconds of\n"
        "that program's body, the length from which on all that were measured are at least twice as fast:"
    )
    return f"{title}\n\n{table(['Cells of a block', 'microseconds of a body', *names], lines)}"


# the columns of the table of README, and by which program each is measured: of a pool, of a rod
FRONT = {
    "Gerfmuod": ("tp", "heat"),
    "unverified Rust, same design": ("runtime by hand", None),
    "oneTBB": ("oneTBB flow graph", "oneTBB flow graph"),
    "OpenMP tasks": ("OpenMP tasks", "OpenMP tasks"),
    "threads and a barrier": (None, "threads and a barrier"),
    "a loop, 1 thread": ("one after the other", "plain loop"),
}
WITHOUT_RUNTIME = {"a loop, 1 thread": "parallelism does not pay off", "threads and a barrier": "threads and a barrier are faster"}
FRONT_POOLS = ["wavefront:64:64:0", "reduce:1024:0"]


def front_rows(all_rows, case, place, names):
    places = [place] * (len(names) - 1) + ["1 by 1"]
    return [found(all_rows, case=case, program=name, where=where) for name, where in zip(names, places)]


def front(runs, body_rows, rod_rows):
    """Returns the table of README: some rows of three measurements, and where threads or a loop are better than a runtime."""
    lines, without, runs, sizes = [], {name: [] for name in FRONT}, having(runs, load=0), bodies(body_rows)
    pools, rods = ([names[order] for names in FRONT.values()] for order in (0, 1))
    for pool in FRONT_POOLS:
        counts = [each_unit(row) for row in front_rows(runs, pool, "1 by 1", pools)]
        least = min(filter(None, counts), default=None)
        cells = [f"**{count:,.0f}**" if count == least else cell(count, "{:,.0f}") for count in counts]
        lines.append([f"Instructions per task, `{pool}`, 1 worker", *cells])
    least = [twice_as_fast(sizes, (name, 1, 4)) if (name, 1, 4) in BODY_PLACES else "" for name in rods]
    lines.append(["Shortest body that 4 workers run at least twice as fast as 1, µs", *least])
    cases = [(f"`{pool}`", front_rows(runs, pool, "1 by 4", pools), "{:.2f}") for pool in FRONT_POOLS]
    cases += [(case, front_rows(rod_rows, case, "1 by 4", rods), "{:.1f}") for case in distinct(rod_rows, "case")]
    for case, here, form in cases:
        best, name = min(((row, name) for row, name in zip(here, FRONT) if row), key=lambda pair: pair[0].milliseconds)
        # (those are bold that the quartiles do not tell from the least one)
        cells = [f"**{with_quartiles(row, form)}**" if row and overlap(row, best) else with_quartiles(row, form) for row in here]
        lines.append([f"{'' if case[0] == '`' else 'Rod: '}{case}, 4 workers, ms", *cells])
        without[name].append(case)
    beaten = "; ".join(f"{text} for {' and '.join(without[name])}" for name, text in WITHOUT_RUNTIME.items() if without[name])
    return "\n\n".join([table(["On four cores, a run (quartiles)", *FRONT], lines), *[f"With four workers, {beaten}."] * bool(beaten)])


def library(rows):
    """Returns a line for each kind of steps and program: the difference of no step and all of them."""
    lines = []
    for kind in ("tasks", "messages"):
        for program in distinct(rows, "program"):
            none, many = (found(rows, case=f"{steps:,} steps of {kind}", program=program) for steps in (0, LIBRARY_STEPS))
            if none and many:
                counted = many.instructions - none.instructions if many.instructions and none.instructions else None
                time, memory = (many.milliseconds - none.milliseconds) * 1e6, (many.MiB - none.MiB) * 2**20
                each = [time / many.units, ratio(counted, many.units), memory / many.units]
                lines.append([kind, program, *(cell(number, "{:.0f}") for number in each)])
    return table(["Steps of", "Program", "nanoseconds a step", "instructions a step", "bytes a step"], lines)


def time_text(form, unit_of, _, row):
    """Returns the time of a row in a unit, with its quartiles if it has several workers."""
    times = [form.format(time * unit_of(row)) for time in (row.milliseconds, row.lower_quartile, row.upper_quartile)]
    return "{} ({}–{})".format(*times) if row.nodes * row.workers > 1 else times[0]


def speed_up(rows, row):
    loop = found(rows, case=row.case, program="one after the other")
    return f"{row.milliseconds * 1000 / row.units:.2f} us" if row == loop else TIME(loop, row)


def growth(rows, row):
    """Returns the nanoseconds a task, and their ratio to those of the smallest graph of this shape."""
    least = next(other for other in having(rows, where=row.where, program=row.program) if other.case.split()[0] == row.case.split()[0])
    return f"{NANOSECONDS(rows, row)}; {ratio(row.milliseconds * least.units, least.milliseconds * row.units):.2f}"


MILLISECONDS = functools.partial(time_text, "{:.1f}", lambda row: 1)
NANOSECONDS = functools.partial(time_text, "{:,.0f}", lambda row: 1e6 / row.units)
# the tables of task graphs: how the names of their cases begin (the first one that fits counts), and the text of a row among its rows
GRAPHS = {
    "Speed-up over the bodies one after the other, whose length is in microseconds": (r"\w+, bodies of", speed_up),
    "Nanoseconds a task, with its description": (r"\w+, empty", NANOSECONDS),
    "Nanoseconds a task, and their ratio to those of the smallest graph of the shape": (r"\w+, [\d,]+ empty bodies", growth),
    "Microseconds a run of 20 tasks": ("wave of", functools.partial(time_text, "{:.2f}", lambda row: 1e3 / row.units)),
    "Milliseconds of Python": ("Python", MILLISECONDS),
    "Milliseconds": ("", MILLISECONDS),
}


def task_graphs(rows):
    kinds = {row: next(title for title, (beginning, _) in GRAPHS.items() if re.match(beginning, row.case)) for row in rows}
    shown = [(title, [row for row in rows if kinds[row] == title], text_of) for title, (_, text_of) in GRAPHS.items()]
    counted = [row for row in rows if row.instructions]
    shown.append(("Instructions a task, with its description, one thread", counted, lambda _, row: cell(each_unit(row), "{:,.0f}")))
    column_of = "{0.program}, {0.where}".format
    tables = ((title, grid("", own, "case", column_of, functools.partial(text_of, own))) for title, own, text_of in shown if own)
    return "\n\n".join(f"{title}:\n\n{text}" for title, text in tables)


def times_and_messages(row):
    messages = cell(row.control_messages, "{:,.0f}") or "not counted"
    return f"{times_of('{:,.1f} ({:,.1f}–{:,.1f})', 1, row)}; {messages}; {row.waves:,.0f}"


def times_of(form, by, row):
    return form.format(*(time / by for time in (row.microseconds, row.lower_quartile, row.upper_quartile)))


def patterns_over_mpi(rows):
    """Returns METG(50%) of each way to run a pattern over processes, and its ratio to the last one, which is MPI alone."""
    ways, lines = distinct(rows, "program"), []
    for pattern, processes in itertools.product(metg.patterns_of(rows), distinct(rows, "nodes")):
        curves = [functools.partial(metg.curve, rows, pattern, way, processes, 1) for way in ways]
        *sizes, last = (metg.metg(curve()) for curve in curves)
        ratios = ["" if size.bound + last.bound else f"{size.microseconds / last.microseconds:.2f}" for size in sizes]
        lines.append([pattern, str(processes), *map(metg.spelt_by_quartiles, curves), *ratios])
    head = ["Pattern", "processes", *ways, *(f"{way}, by {ways[-1]}" for way in ways[:-1])]
    return f"METG(50%) in microseconds, one thread a process, and ratios:\n\n{table(head, lines)}"


def detectors(rows):
    what = "microseconds to the last process that knows the end (quartiles); control messages; waves, rounds of the token, reductions"
    tasks, timed = [row.as_pattern for row in rows if row.tasks], [row for row in rows if row.microseconds is not None and not row.tasks]
    shown = [(case, what, times_and_messages) for case in distinct([row for row in timed if row.waves is not None], "case")]
    whole = "milliseconds (quartiles), with four threads in all", functools.partial(times_of, "{:,.0f} ({:,.0f}–{:,.0f})", 1000)
    short = "microseconds (quartiles)", functools.partial(times_of, "{:.3f} ({:.3f}–{:.3f})", 1)
    cases = distinct([row for row in timed if row.waves is None], "case")
    shown += [(case, *(whole if case.startswith("Cholesky") else short)) for case in cases]
    for case, *fields in (("simulated", "steps", "control_messages", "waves"), ("random programs", "control_messages", "waves")):
        text_of = functools.partial(lambda fields, row: ", ".join(f"{getattr(row, field):,.0f}" for field in fields), fields)
        shown.append((case, ", ".join(fields).replace("_", " "), text_of))
    parts = [
        f"{case[0].upper()}{case[1:]}, by processes: {what}:\n\n"
        + grid("Detector", having(rows, case=case), "detector", lambda row: f"{row.processes:,}", text_of)
        for case, what, text_of in shown
    ]
    lines = [
        [row.case[len("calls: "):], row.detector, cell(row.nanoseconds_a_call, "{:.1f}"), cell(row.instructions, "{:.0f}")]
        for row in rows if row.nanoseconds_a_call is not None
    ]
    calls = f"A call, the loop around it included:\n\n{table(['Calls', 'Detector', 'nanoseconds', 'instructions'], lines)}"
    return "\n\n".join([*parts[:-2], *map(patterns_over_mpi, [tasks] * bool(tasks)), calls, *parts[-2:]])


def preloaded(rows):
    """Returns a line for each case: its time without the checker and with it, and the ratio of both."""

    def cell_of(case, name):
        if own := found(rows, case=case, detector=name):
            return times_of("{:.2f} ({:.2f}–{:.2f})", 1, own)
        both = (found(rows, case=case, detector=way) for way in ("with", "without"))
        return ratio_of_rows("microseconds", "lower_quartile", "upper_quartile", *both)

    return pivot("Microseconds (quartiles)", distinct(rows, "case"), {name: name for name in ("without", "with", "ratio")}, cell_of)


TABLES = {
    "sim": texts, "audit": texts, "run": pools, "patterns": grids, "rod": functools.partial(milliseconds, ROD_PLACES), "body": body,
    "product": functools.partial(milliseconds, PRODUCT_PLACES), "library": library, "dag": task_graphs, "processes": detectors,
    "preloaded": preloaded,
}
assert TABLES.keys() == MEASUREMENTS.keys()


def of_origins(origins):
    shown = ["date", "commit", "form", "rounds", "seconds", "load_average", "others", "seconds_to_rest", "marked"]
    columns = {name.replace("_", " "): name for name in shown if any(getattr(origin, name) not in (None, "") for origin in origins)}
    known = {f"`{origin.measurement}`": origin for origin in origins}
    parts = [pivot("Measurement", known, columns, lambda measurement, name: cell(getattr(known[measurement], name), "{}"))]
    fields = [Origin._fields.index(name) for name in ("processor", "others")]
    for machine in dict.fromkeys(tuple(origin)[fields[0]:fields[1]] for origin in origins):
        name, processors, memory, system, compilers, counter = machine
        counts = f"; instructions by {counter}" if counter else ""
        parts.append(f"{name}, {processors} processors, {memory:.0f} GiB; {system};\n{compilers}{counts}.")
    return "\n\n".join(parts)
