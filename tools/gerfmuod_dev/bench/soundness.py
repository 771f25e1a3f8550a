"""Finds rows that cannot be: no series that has one is stored, and `tools/dev bench --check` fails if a stored row is one."""
from . import metg
from .cases import ALONE, PATTERNS_OF_TASKS, TOGETHER
from .tables import bodies

# the part of the machine's time that kernels take, at most: more than 1 by what a processor's speed varies
MOST_EFFICIENCY = 1.05


def of_row(row):
    """Returns what is impossible in a row of `patterns`; an empty text if nothing is."""
    if not row.kernel_nanoseconds:
        return "it has no time of an iteration"
    efficiency = metg.point_of(row).efficiency
    return f"its kernels take {efficiency:.2f} of the workers' time" if efficiency > MOST_EFFICIENCY else ""


def missing(rows):
    """Yields the sizes of tasks that a full series of `patterns` has and these rows have not."""
    places = dict.fromkeys((row.program, row.nodes, row.workers) for row in rows)
    for pattern in PATTERNS_OF_TASKS:
        for program, nodes, workers in places:
            due, has = len(ALONE if nodes * workers == 1 else TOGETHER), len(metg.curve(rows, pattern, program, nodes, workers))
            if has != due:
                yield f"{pattern}, {program}, {nodes} by {workers}: {has} of {due} sizes of tasks"


def impossible(measurement, rows):
    """Returns the names of impossible rows with what is impossible."""
    if measurement == "processes":
        return impossible("patterns", [row.as_pattern for row in rows if row.tasks])
    if measurement == "preloaded":
        times = {(row.case, row.detector): (row.lower_quartile, row.microseconds, row.upper_quartile) for row in rows}
        return [f"{', '.join(name)}: {own} us are no times" for name, own in times.items() if not 0 < own[0] <= own[1] <= own[2]]
    if measurement not in ("patterns", "body", "run", "rod"):
        return []
    names = {id(row): f"{row.case}, {row.program}, {row.where}" for row in rows}
    if untimed := [row for row in rows if not 0 < row.lower_quartile <= row.milliseconds <= row.upper_quartile]:
        return [f"{names[id(row)]}: {row.milliseconds} ms is not a time" for row in untimed]
    if measurement == "patterns":
        return [f"{names[id(row)]}: {reason}" for row in rows if (reason := of_row(row))]
    return [
        f"blocks of {body.block}, {program}, {nodes} by {workers}: {speed_up:.2f} times as fast as one worker"
        for body in bodies(rows) for (program, nodes, workers), (speed_up, _, _) in body.speed_ups.items()
        if measurement == "body" and speed_up > MOST_EFFICIENCY * nodes * workers
    ]
