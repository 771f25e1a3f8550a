"""The plots of measurements: which numbers each one shows, as `drawing.py` takes them, from the stored rows."""
import os

from ..repository import figure
from . import metg
from .cases import PLACES, TASKS
from .rows import kept
from .tables import BODY_PLACES, bodies, having

RUNTIMES = ["tp", "runtime by hand", "oneTBB flow graph", "OpenMP tasks"]
POOLS = [pool for pool in TASKS if pool != "product:64:1:0"]
GRID_PROGRAMS = ["patterns", "runtime by hand", "oneTBB flow graph", "OpenMP tasks", "threads and a barrier"]
CURVES = ["stencil", "spread"]


def lines_plot(names, panels, x, y, is_log_y=False, places=()):
    panels = [{"title": title, "lines": lines} for title, lines in panels if any(lines)]
    return {"kind": "lines", "names": names, "panels": panels, "x": x, "y": y, "is_log_y": is_log_y, "places": list(places)}


def bars_plot(names, groups, y):
    return {"kind": "bars", "names": names, "groups": groups, "y": y}


def programs_in(rows, names):
    return [name for name in names if having(rows, program=name)]


def time_by_nodes(rows):
    rows, panels = having(rows, load=0), []
    programs = programs_in(rows, RUNTIMES)
    for pool in POOLS:
        own = [having(rows, case=pool, program=program) for program in programs]
        lines = [[(PLACES.index((row.nodes, row.workers)), row.milliseconds * 1000 / row.units) for row in line] for line in own]
        panels.append((pool, lines))
    places = [f"{nodes}×{workers}" for nodes, workers in PLACES]
    return lines_plot(programs, panels, "nodes × workers", "microseconds a task", True, places)


def instructions_a_task(rows):
    names, groups = [*RUNTIMES, "one after the other"], []
    for pool in TASKS:
        if found := {row.program: ("", row.instructions / row.units) for row in rows if row.case == pool and row.instructions}:
            groups.append((pool, [found.get(name) for name in names]))
    return bars_plot(names, groups, "instructions a task")


def efficiency_by_task(rows):
    """The part of four workers' time that is kernels, against the size of a task, a panel for each of two patterns."""
    programs = programs_in(rows, GRID_PROGRAMS)
    curves = [(pattern, [metg.curve(rows, pattern, name, 1, 4) for name in programs]) for pattern in CURVES]
    panels = [(pattern, [[(point.task, point.efficiency) for point in line] for line in lines]) for pattern, lines in curves]
    return lines_plot(programs, panels, "microseconds a task", "kernels by time of four workers")


def metg_by_pattern(rows):
    programs, groups, signs = programs_in(rows, GRID_PROGRAMS), [], {"under": "<", "over": ">"}
    for pattern in metg.patterns_of(rows):
        found = [metg.metg(metg.curve(rows, pattern, name, 1, 4)) for name in programs]
        groups.append((pattern, [size and (signs.get(size.bound, ""), size.microseconds) for size in found]))
    return bars_plot(programs, groups, "METG(50%), microseconds")


def speed_up_by_body(rows):
    names = ["heat, 1×4", "heat, 2×2", "heat, 4×1", "oneTBB, 4 threads", "OpenMP, 4 threads"]
    own = [[body for body in bodies(rows) if place in body.speed_ups] for place in BODY_PLACES]
    lines = [[(body.microseconds[place[0]], body.speed_ups[place][0]) for body in line] for place, line in zip(BODY_PLACES, own)]
    return lines_plot(names, [("", lines)], "microseconds of a body at one worker", "times as fast as one worker")


# each plot with its measurement and its title
PLOTS = {
    "time-by-nodes": ("run", time_by_nodes, "Microseconds a task against nodes and workers, for three pools and four programs"),
    "instructions-a-task": ("run", instructions_a_task, "Instructions a task of each program at one node with one worker"),
    "efficiency-by-task": (
        "patterns", efficiency_by_task, "Which part of four workers' time is kernels, against the size of a task, for two patterns"),
    "metg-by-pattern": ("patterns", metg_by_pattern, "METG(50%) of each pattern, for five programs at one node with four workers"),
    "speed-up-by-body": ("body", speed_up_by_body, "How many times as fast four workers are as one, against the length of a body"),
}


def plot_of(name):
    measurement, numbers_of, _ = PLOTS[name]
    rows = kept(measurement)
    plot = numbers_of(rows) if rows else {}
    return plot if plot.get("panels") or plot.get("groups") else None


def of(measurement):
    return [name for name, (source, _, _) in PLOTS.items() if source == measurement and os.path.exists(figure(name))]
