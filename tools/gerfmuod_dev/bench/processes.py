"""Measures programs over Open MPI on this machine: the detectors for distributed programs, also call by call and in simulations, the
factorization of a matrix, messages from task to task, and short tasks.

The proved detector is that of lib/libgerfmuod.a. The others are hand-written (capi/mpi/detectors.h): the same four counters over the
same tree, Safra's ring (EWD 998), and reductions of the counters (MPI_Iallreduce). Of capi/mpi are graph_cholesky.c, mpi_cholesky.c
(also StarPU, ScaLAPACK), graph_costs.c with messages, over MPICH too, and graph_patterns.c with short tasks.
"""
import functools
import itertools
import os
import re
import shutil
import sys
from statistics import median

from .. import mpi_graphs, running
from ..c_programs import output_of
from ..mpi_graphs import BLAS, ENVIRONMENT, MPIS, command_of, compiled
from ..repository import TOP
from ..shared_object import INCLUDE
from .measuring import quantiles
from .rows import ProcessRow

# the argument of the programs for each detector, and its name in the rows; the last one needs MPI
DETECTORS = {"proved": "proved", "hand": "the same hand-written", "safra": "Safra's ring", "reductions": "reductions"}
WITHOUT_MPI = list(DETECTORS)[:-1]
PROCESSES = [1, 2, 4, 8, 16]
CALLS = {"send": 1, "message": 2, "wave": 3}
SIMULATED = [2**power for power in range(0, 21, 2)]
# the ways of graph_patterns.c, and their names in the rows; the columns and steps, and the iterations of tasks
WAYS = {"graph": "one graph, with its description", "run": "one graph, described before", "plain": "MPI alone"}
GRID, ITERATIONS = (16, 100), [50 * 2**power for power in range(11)]
# a process whose instructions are counted does this number of turns
TURNS = 1_000_000
print_case = functools.partial(print, "processes:", file=sys.stderr, flush=True)
NO_ROW = ProcessRow("processes", "", "", 1, 1, *[None] * 9)
# lines that the programs print
NUMBER = r"([\d.]+)"
IDLE = (
    rf"median {NUMBER} us, quartiles {NUMBER} to {NUMBER} us, nine of ten below {NUMBER} us, "
    rf"{NUMBER} control messages and {NUMBER} waves a round"
)
IDLE_FIELDS = ("microseconds", "lower_quartile", "upper_quartile", "slowest_tenth", "control_messages", "waves")
SEARCH = rf"{NUMBER} ms to detect the end, {NUMBER} waves, {NUMBER} control messages"
STEPS = rf": {NUMBER} steps, {NUMBER} control messages, {NUMBER} waves"
FACTORED = rf", {NUMBER} s, .*: right"
TASKS = rf".*: {NUMBER} ns an iteration, microseconds{{}}, .*: right\n"
COSTS = rf"to task {NUMBER} us, with MPI alone {NUMBER} us; a task of the other process {NUMBER} us"
COSTS_OF = [("message of 8 bytes", "from task to task"), ("message of 8 bytes", "MPI alone"), ("a foreign task described", "one graph")]
STORM = rf"{NUMBER} waves, {NUMBER} control messages, at most {NUMBER} waves after the end"


def numbers_in(text, form):
    """Returns the numbers of a line that a program prints; exits with status 1 if it prints no such line."""
    if not (found := re.search(form, text)):
        raise SystemExit(f"not the line that was expected: {running.short(text.encode())}")
    return [float(number) for number in found.groups()]


def over_mpi(program, processes, arguments, form, over=MPIS[0]):
    """Returns the numbers that a program prints; exits with status 1 if it fails. (Open MPI would bind each of two processes to a core.)"""
    own = {"OMPI_MCA_hwloc_base_binding_policy": "none", "STARPU_HOME": os.path.dirname(program)}
    return numbers_in(output_of(command_of(over, processes, program, arguments), env={**ENVIRONMENT, **own}), form)


def row(case, argument, **values):
    """Returns the row of a detector. Open MPI does not count the messages of reductions."""
    if argument == "reductions":
        values["control_messages"] = None
    return NO_ROW._replace(case=case, detector=DETECTORS[argument], **values)


def idle(program, rounds):
    for processes in PROCESSES:
        print_case(f"idle, {processes} processes")
        for argument in DETECTORS:
            numbers = over_mpi(program, processes, [argument, str(rounds)], IDLE)
            yield row("idle processes", argument, processes=processes, rounds=rounds, **dict(zip(IDLE_FIELDS, numbers)))


def search_tree(program, tree, rounds):
    """Measures the search of a tree; the detectors take turns. A row has medians, and quartiles of the time."""
    for processes in PROCESSES:
        print_case(f"tree {tree}, {processes} processes")
        searches = {argument: [] for argument in DETECTORS}
        for seed in range(1, rounds + 1):
            for argument, own in searches.items():
                own.append(over_mpi(program, processes, [tree, argument, "right", str(seed)], SEARCH))
        for argument, own in searches.items():
            milliseconds, waves, messages = zip(*own)
            numbers = [*quantiles([1000 * time for time in milliseconds]), median(messages), median(waves)]
            yield row(f"tree {tree}", argument, processes=processes, rounds=rounds, **dict(zip(IDLE_FIELDS, numbers)))


def factor(bench, order, blocks, rounds):
    """Measures the factorization of a matrix by four threads in all; the programs take turns. ScaLAPACK has one thread a process."""
    factoring = functools.partial(compiled, MPIS[0], bench.folder, options=BLAS)
    compiler, link = (MPIS[0].compiler, "-O2", f"-I{INCLUDE}"), (*BLAS, f"-L{TOP}/lib", "-lgerfmuod", "-pthread", "-lm")
    starpu = bench.peers.program("starpu", compiler, "../../capi/bench/peers/starpu_cholesky.c", (*mpi_graphs.starpu(), *link))
    scalapack = bench.peers.program("pdpotrf", compiler, "pdpotrf.c", ("-lscalapack-openmpi", *link))
    own = {
        "one graph over all processes": [factoring("graph_cholesky"), blocks[0]], "StarPU": [starpu, blocks[0]],
        "a graph in each process": [factoring("mpi_cholesky"), blocks[0]], "StarPU, tasks inserted before": [starpu, blocks[0], "before"],
        **{f"ScaLAPACK, blocks of {block}": [scalapack, block] for block in blocks},
    }
    for processes in (4, 2):
        print_case(f"Cholesky, {processes} processes")
        programs = {name: case for name, case in own.items() if case[0] and (processes == 4 or case[0] != scalapack)}
        times = {name: [] for name in programs}
        for name, (program, tile, *more) in rounds * list(programs.items()):
            times[name] += over_mpi(program, processes, [str(order), str(tile), str(4 // processes), *more], FACTORED)
        for name, all_times in times.items():
            values = dict(zip(IDLE_FIELDS, quantiles([1e6 * time for time in all_times])))
            yield NO_ROW._replace(case=f"Cholesky of order {order:,}", detector=name, processes=processes, rounds=rounds, **values)


def patterns(bench, sizes, rounds, runs):
    """Measures short tasks, of all sizes in each process; the ways take turns."""
    program, kernels = compiled(MPIS[0], bench.folder, "graph_patterns"), []
    for pattern, processes in itertools.product(("stencil", "spread"), (2, 4)):
        print_case(f"{pattern}, {processes} processes")
        times = {(way, size): [] for way in WAYS for size in sizes}
        for way in rounds * list(WAYS):
            arguments = [way, pattern, *map(str, [*GRID, 1, runs, *sizes])]
            numbers = iter(over_mpi(program, processes, arguments, len(sizes) * TASKS.format(runs * f" {NUMBER}")))
            for size in sizes:
                kernels.append(next(numbers))
                times[way, size] += itertools.islice(numbers, runs)
        for (way, size), own in times.items():
            values = dict(zip(IDLE_FIELDS, quantiles(own)), rounds=len(own), tasks=GRID[0] * GRID[1], kernel_nanoseconds=min(kernels))
            yield NO_ROW._replace(case=f"{pattern}, {size:,} iterations", detector=WAYS[way], processes=processes, **values)


def costs(bench, tasks, rounds):
    """Measures a message from task to task and with MPI alone, and the description of a task of the other process, over each MPI."""
    for over in (over for over in MPIS if shutil.which(over.compiler)):
        print_case(f"messages from task to task, {over.name}")
        program = compiled(over, bench.folder, "graph_costs")
        numbers = zip(*(over_mpi(program, 2, [str(tasks)], COSTS, over) for _ in range(rounds)))
        for (case, way), own in zip(COSTS_OF, numbers):
            values = dict(zip(IDLE_FIELDS, quantiles(own)))
            yield NO_ROW._replace(case=case, detector=f"{way}, {over.name}", processes=2, rounds=rounds, **values)


def calls(bench, program, rounds, turns):
    for kind, calls_of_turn in CALLS.items():
        for argument in WITHOUT_MPI:
            print_case(f"calls, {kind}, {DETECTORS[argument]}")
            command = [program, "calls", kind, argument]
            times = [numbers_in(output_of([*command, str(turns)]), rf"calls, {NUMBER} ns each")[0] for _ in range(rounds)]
            none, turned = (running.instructions([*command, str(number)]) if bench.counts else None for number in (0, TURNS))
            count = (turned - none) / TURNS / calls_of_turn if none and turned else None
            yield row(f"calls: {kind}", argument, rounds=rounds, nanoseconds_a_call=median(times), instructions=count)


def simulated(program, sizes):
    """Measures the end of idle processes over a network in which a control message takes one step."""
    for processes in sizes:
        print_case(f"simulated, {processes:,} processes")
        for argument in WITHOUT_MPI:
            steps, messages, waves = numbers_in(output_of([program, "steps", argument, str(processes)]), STEPS)
            yield row("simulated", argument, processes=processes, control_messages=messages, waves=waves, steps=int(steps))


def storms(program, sizes):
    for processes in sizes if program else ():
        print_case(f"random programs, {processes:,} processes")
        waves, messages, _ = numbers_in(output_of([program, str(processes), "1"]), STORM)
        yield row("random programs", "proved", processes=processes, control_messages=messages, waves=waves)


def measure(bench):
    quick = bench.is_quick
    program = bench.peers.over_library("processes")
    if not shutil.which(MPIS[0].compiler):
        print_case(f"{MPIS[0].compiler} is not installed, so nothing is measured over MPI")
    else:
        yield from idle(compiled(MPIS[0], bench.folder, "latency"), 200 if quick else 2_000)
        yield from search_tree(compiled(MPIS[0], bench.folder, "uts_mpi"), "T0" if quick else "T1", 3 if quick else 5)
        yield from factor(bench, 512 if quick else 4096, [128, 64, 256], 3 if quick else 9)
        yield from costs(bench, 1_000 if quick else 100_000, 3 if quick else 9)
        yield from patterns(bench, ITERATIONS[3::2] if quick else ITERATIONS, 2 if quick else 5, 3 if quick else 10)
    yield from calls(bench, program, bench.rounds, 1_000_000 if quick else 10_000_000)
    yield from simulated(program, sizes := SIMULATED[:6] if quick else SIMULATED)
    storm = bench.peers.over_library("storm", "../../capi/tests/process/storm.c", "-lcmocka")
    yield from storms(storm, sizes[:-1:2] if quick else sizes[::2])
