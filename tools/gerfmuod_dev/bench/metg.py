"""METG(50%) of a program, from the rows of `patterns`: the smallest task at which it uses half of the machine.

The part of the machine that works at kernels is the sequential time of all tasks' kernels, divided by the workers and by
the time of the run. The time of an iteration is the least of one task of many until then, which the program runs in each
round, so the machine's best speed counts. A task's size is the time of the run times the workers, divided by the tasks, so it includes the
runtime's overhead. All times are those that the programs take of their own runs.
"""
from typing import NamedTuple


class Point(NamedTuple):
    """A size of tasks, in microseconds: of a task, and of its kernel alone."""

    task: float
    kernel: float

    @property
    def efficiency(self):
        return self.kernel / self.task

    @property
    def lacks(self):
        """By how much a task is longer than one whose kernel is half of it."""
        return self.task - 2 * self.kernel


def spelt(microseconds):
    return f"{microseconds:.0f}" if microseconds >= 100 else f"{microseconds:.1f}" if microseconds >= 10 else f"{microseconds:.2f}"


class Metg(NamedTuple):
    """Microseconds of the smallest task; the bound is `under` or `over` if no measured size is on the other side, or empty."""

    bound: str
    microseconds: float

    def __str__(self):
        return f"{self.bound} {spelt(self.microseconds)}".strip()


def spelt_by_quartiles(curve_of):
    """Returns METG(50%) by the medians of the times, and by their lower and their upper quartiles."""
    sizes = [metg(curve_of(time)) for time in ("milliseconds", "lower_quartile", "upper_quartile")]
    return f"{sizes[0]} ({sizes[1]}–{sizes[2]})" if all(sizes) else ""


def pattern_of(case):
    return case.split(", ")[0]


def patterns_of(rows):
    return list(dict.fromkeys(pattern_of(row.case) for row in rows))


def iterations_of(case):
    return int(case.split(", ")[1].split()[0].replace(",", ""))


def point_of(row, time="milliseconds"):
    """Returns the size of the tasks of a row; a quartile can stand for its time."""
    task = getattr(row, time) * 1000 * row.nodes * row.workers / row.units
    return Point(task, iterations_of(row.case) * row.kernel_nanoseconds / 1000)


def curve(rows, pattern, program, nodes, workers, time="milliseconds"):
    own = [row for row in rows if (row.program, row.nodes, row.workers) == (program, nodes, workers)]
    own = sorted((row for row in own if pattern_of(row.case) == pattern), key=lambda row: iterations_of(row.case))
    return [point_of(row, time) for row in own]


def metg(points):
    """Returns the size from which on all larger ones that were measured use half, interpolated between two sizes."""
    larger = None
    for point in reversed(points):
        if point.lacks > 0:
            if larger is None:
                return Metg("over", point.task)
            part = point.lacks / (point.lacks - larger.lacks)
            return Metg("", point.task + part * (larger.task - point.task))
        larger = point
    return Metg("under", max(larger.task, larger.kernel)) if larger else None
