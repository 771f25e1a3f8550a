"""Measures what the checkers of MPI and OpenMP programs cost: programs of capi/preload with and without the checker, in turns."""
import functools
import itertools
import os
import re
import shutil
import sys

from .. import mpi_check, ompt
from ..c_programs import output_of
from .measuring import quantiles
from .rows import ProcessRow

TIMES = ("microseconds", "lower_quartile", "upper_quartile", "slowest_tenth")
NO_ROW = ProcessRow("preloaded", "", "", 1, 1, *[None] * 9)
WAYS = ("without", "with")
# of OpenMP: the threads, whether the tasks are in chains, and the microseconds of a body with the number of tasks
THREADS, CHAINS, BODIES = (1, 4), {"independent tasks": "0", "64 chains": "1"}, {0: "100000", 1: "100000", 35: "20000"}


def in_turns(bench, ways, processes=1):
    """Runs the checker's ways by turns, each of which returns microseconds by case; yields a row for each case and way."""
    times = {}
    for name, way in bench.rounds * list(ways.items()):
        for case, time in way():
            times.setdefault((case, name), []).append(float(time))
    for (case, name), own in times.items():
        yield NO_ROW._replace(case=case, detector=name, processes=processes, rounds=bench.rounds, **dict(zip(TIMES, quantiles(own))))


def messages(bench, mpi):
    """Half of a round trip between two processes, and a reduction over both."""
    library, program = f"{bench.folder}/{mpi_check.NAME}", mpi_check.compiled(mpi, bench.folder, "cost")
    mpi_check.build(mpi.compiler, library)

    def run(preload):
        found = re.findall(r"^(\S.*): (\S+) us$", mpi_check.printed_by(mpi, 2, [program], LD_PRELOAD=preload), re.M)
        return [(f"{mpi.name}: {name}", time) for name, time in found]

    return in_turns(bench, {name: functools.partial(run, preload) for name, preload in zip(WAYS, ("", library))}, 2)


def tasks(bench):
    folder = f"{bench.folder}/openmp"
    output_of([*ompt.MAKE, f"OUT={folder}"])
    program, tools = f"{folder}/cost", ({"OMP_TOOL": "disabled"}, {"OMP_TOOL_LIBRARIES": f"{folder}/{ompt.TOOL}"})
    turns = float(output_of([program]).split()[0])
    for threads, (kind, chained), (length, count) in itertools.product(THREADS, CHAINS.items(), BODIES.items()):
        case = f"OpenMP, {threads} thread{'s' * (threads > 1)}: {kind}, bodies of {length} us"
        command, shared = [program, count, str(round(length * turns)), chained], {**os.environ, "OMP_NUM_THREADS": str(threads)}

        def run(tool, case=case, command=command, shared=shared):
            return [(case, re.search(r"^([\d.]+) us a task$", output_of(command, env={**shared, **tool}), re.M)[1])]

        yield from in_turns(bench, {name: functools.partial(run, tool) for name, tool in zip(WAYS, tools)})


def measure(bench):
    for mpi in mpi_check.MPIS:
        if shutil.which(mpi.compiler):
            yield from messages(bench, mpi)
    if shutil.which("clang"):
        yield from tasks(bench)
    else:
        print("clang: not installed, so the tool for OpenMP programs is not measured", file=sys.stderr)
