"""Task graphs with the caller's bodies: the programs of capi/examples and capi/bench, compared with OpenMP, oneTBB, StarPU and OpenBLAS.

Each program measures all configurations of one process in turn, in each round, and checks each result against another method; a first round
is not counted. Peers that need a process of their own run between. A program that cannot be compiled is named and left out.
"""
import functools
import itertools
import os
import re
import shutil
import sys
from typing import NamedTuple

from .. import running, shared_object
from ..repository import TOP
from .measuring import busy_processes, quantiles
from .peers import Peers
from .rows import Row

SOURCES = f"{TOP}/capi"
C = ("gcc", "-std=gnu11", "-O2", "-fopenmp", f"-I{TOP}/capi/include")
CPP = ("g++", "-std=c++17", "-O2")
WORKERS = 4
# how many rounds a process does before the next process runs
ROUNDS_IN_TURN = 5
CHOLESKY = [(2048, 64), (2048, 128), (2048, 256), (4096, 64), (4096, 128), (4096, 256)]  # order and tiles
JACOBI = [(1024, 32, 100), (1024, 64, 100), (2048, 128, 50)]  # side, block, steps
SORT = [(2_000_000, 2_000), (2_000_000, 20_000)]  # length, leaf
# graphs of small tasks: the factorizations of 83, 48 and 45 tiles in a row have as many
EMPTY_TASKS, COUNTED_TASKS, BODY_TASKS = 98_770, 19_600, 16_215
SHAPES, GROWING = ["wave", "three", "cholesky", "wide", "chain", "stencil"], ["wide", "three", "anywhere"]
WITH_BODIES, MICROSECONDS, CALIBRATION = SHAPES[:3], [0.3, 1, 3, 10], 20_000_000

# cachegrind counts an instruction that moves many bytes as one for each byte: this has glibc use loops
STRINGS = [f"glibc.cpu.x86_rep_{name}_threshold=1000000000" for name in ("movsb", "stosb")]
NO_STRING_MOVES = {"GLIBC_TUNABLES": ":".join(STRINGS)}


class Way(NamedTuple):
    """A program of a comparison, the argument by which a process knows it, and its nodes and workers."""

    program: str
    argument: str
    nodes: int = 1
    workers: int = 1


def ways(program, argument, workers=(1, WORKERS)):
    return [Way(program, argument.format(count), 1, count) for count in workers]


GRAINS = {"pool": "{}", "workers": "w{}", "OpenMP tasks": "omp:{}"}
POOL, ON_WORKERS, OPENMP = (ways(*program) for program in GRAINS.items())
TRACED, LOOP = Way("pool with a trace", "1t"), Way("one after the other", "loop")


class Process(NamedTuple):
    """One process of a comparison: its program, or None if that does not compile; its first arguments; and the ways that it measures."""

    program: str
    size: tuple
    ways: list
    environment: dict = {}

    def command(self, rounds):
        return [self.program, *map(str, self.size), str(rounds), *(way.argument for way in self.ways)]


class Programs(Peers):
    def __init__(self, folder):
        super().__init__(folder, SOURCES)
        self.over = shared_object.compile_part(shared_object.TEAM, folder), f"-L{TOP}/lib", "-lgerfmuod", "-pthread"

    def own(self, source, size, its_ways):
        return Process(self.program(os.path.basename(source), C, f"{source}.c", (*self.over, "-lm")), size, its_ways)

    def tbb(self, name, size, workers=(1, WORKERS), title="oneTBB flow graph"):
        program = self.program(f"{name}_tbb", CPP, f"bench/peers/{name}_tbb.cpp", ("-pthread", "-ltbb"))
        return [Process(program, size, [way]) for way in ways(title, "{}", workers)]

    def cholesky(self, name="cholesky", *more):
        return self.program(name, (*C, "-DHAVE_BLAS"), "examples/cholesky.c", (*self.over, "-lopenblas", "-lm", *more))

    def starpu(self):
        options = running.run(["pkg-config", "--cflags", "--libs", "starpu-1.3"]).out.decode().split()
        return self.cholesky("cholesky_starpu", "-DHAVE_STARPU", *options)

    @functools.lru_cache(maxsize=None)
    def iterations(self, microseconds):
        """Returns how many iterations of a body take as long."""
        (_, times), = times_of(self.own("bench/grain", ("wide", 1, CALIBRATION), [LOOP]), 3)
        return round(microseconds * CALIBRATION / (min(times) * 1000))


def times_of(process, rounds):
    """Returns the number of tasks and the milliseconds of each way of a process, in order; exits with status 1 if it fails."""
    command = process.command(rounds)
    result = running.run(command, env={**os.environ, **process.environment}, timeout=None)
    lines = [line.split() for line in result.out.decode().splitlines() if re.match(r"\S+ \d+( [\d.]+)+$", line)]
    if result.status or len(lines) != len(process.ways):
        raise SystemExit(f"{' '.join(command)}: {running.short(result.out, 2000)}, {result.description(2000)}")
    return [(int(tasks), [float(time) for time in times]) for _, tasks, *times in lines]


def compare(bench, case, processes, counted=dict):
    """Returns a row for each way; `counted` returns instructions by way. The processes take turns, a few rounds at a time."""
    if bench.only not in f"dag {case}":
        return []
    print(f"dag: {case}", file=sys.stderr, flush=True)
    processes = [process for process in processes if process.program]
    found, left, instructions = {}, bench.rounds, counted()
    with busy_processes(bench.load):
        while left > 0:
            rounds = min(left, ROUNDS_IN_TURN)
            for process in processes:
                for way, (tasks, times) in zip(process.ways, times_of(process, rounds)):
                    found.setdefault(way, (tasks, []))[1].extend(times)
            left -= rounds
    return [
        Row(
            "dag", case, "task", tasks, way.program, way.nodes, way.workers, bench.load, len(times), *quantiles(times),
            None, None, None, None, instructions.get(way),
        ) for way, (tasks, times) in found.items()
    ]


def cholesky(bench, programs):
    whole, one_thread = ways("OpenBLAS dpotrf", "whole:{}"), {"OPENBLAS_NUM_THREADS": "1"}
    starpu = {**one_thread, "STARPU_NCPU": str(WORKERS), "STARPU_SCHED": "lws", "STARPU_SILENT": "1", "STARPU_HOME": bench.folder}
    for size in [(1024, 128)] if bench.is_quick else CHOLESKY:
        own = Process(programs.cholesky(), size, [LOOP, *POOL, OPENMP[1], *whole], one_thread)
        other = Process(programs.starpu(), size, ways("StarPU", "starpu", [WORKERS]), starpu)
        yield from compare(bench, "Cholesky, order {}, tiles of {}".format(*size), [own, other])


def jacobi_and_sort(bench, programs):
    """Measures Jacobi steps on a grid in blocks, and merge sort, whose tasks add further ones."""
    on_grid = [*ways("OpenMP parallel for", "omp:{}", [WORKERS]), *ways("OpenMP tasks", "dep:{}", [WORKERS])]
    for source, case, sizes, quick_size, peers in (
        ("examples/jacobi", "Jacobi, {0} by {0} in blocks of {1}, {2} steps", JACOBI, (512, 64, 20), on_grid),
        ("examples/recursion", "merge sort, {:,} numbers, leaves of {:,}", SORT, (200_000, 2_000), OPENMP[1:]),
    ):
        for size in [quick_size] if bench.is_quick else sizes:
            yield from compare(bench, case.format(*size), [programs.own(source, size, [LOOP, *POOL, *peers])])


def instructions_by_way(bench, programs, shape):
    """Returns the instructions of one round, by the difference to none, with empty bodies and one thread; none if they are not counted."""
    size, counts = (shape, COUNTED_TASKS, 0), {}
    if not bench.counts or bench.load or not shutil.which("valgrind"):
        return counts
    own = [programs.own("bench/grain", size, [way]) for way in (POOL[0], TRACED, OPENMP[0])]
    for process in (process for process in [*own, *programs.tbb("grain", size, [1])] if process.program):
        none, one = (running.instructions(process.command(rounds), env={**os.environ, **NO_STRING_MOVES}) for rounds in (0, 1))
        counts[process.ways[0]] = (one - none) * EMPTY_TASKS // COUNTED_TASKS
    return counts


def empty(bench, programs):
    """Measures graphs of empty bodies, and how the time of a task grows with their number."""
    for shape in SHAPES[:2] if bench.is_quick else SHAPES:
        size = shape, EMPTY_TASKS, 0
        own = programs.own("bench/grain", size, [*POOL, TRACED, *ON_WORKERS, *OPENMP]), *programs.tbb("grain", size)
        yield from compare(bench, f"{shape}, empty bodies", own, functools.partial(instructions_by_way, bench, programs, shape))
    few = bench._replace(rounds=min(bench.rounds, ROUNDS_IN_TURN))  # (a million tasks take seconds a round)
    for shape, tasks in itertools.product(GROWING, (1_000, 10_000 if bench.is_quick else 1_000_000)):
        yield from compare(few, f"{shape}, {tasks:,} empty bodies", [programs.own("bench/grain", (shape, tasks, 0), POOL + ON_WORKERS)])


def bodies(bench, programs):
    workers = 1, 2, WORKERS
    for shape, microseconds in itertools.product(*(WITH_BODIES[:1], MICROSECONDS[1::2]) if bench.is_quick else (WITH_BODIES, MICROSECONDS)):
        size = shape, BODY_TASKS, programs.iterations(microseconds)
        own = programs.own("bench/grain", size, sum((ways(*program, workers) for program in GRAINS.items()), [LOOP]))
        yield from compare(bench, f"{shape}, bodies of {microseconds:g} us", [own, *programs.tbb("grain", size, workers)])


def small_runs(bench, programs):
    """Measures a tree that tasks spawn, a graph of 20 tasks that runs many times, and functions of Python."""
    for microseconds in (0, 1):
        size = 12 if bench.is_quick else 16, programs.iterations(microseconds)
        own = programs.own("bench/tree", size, [LOOP, *POOL, *ON_WORKERS, *OPENMP])
        peers = programs.tbb("tree", size, title="oneTBB task group")
        yield from compare(bench, f"binary tree that tasks spawn, depth {size[0]}, bodies of {microseconds} us", [own, *peers])
    own = [*(Way(f"pool, {name}", f"{name}:2", 1, 2) for name in ("again", "clear", "new")), *ways("OpenMP tasks", "omp:{}", [2])]
    yield from compare(bench, "wave of 20 tasks", [programs.own("bench/again", ("wave", 20, 1000), own)])
    own, size = [*ways("pool", "pool:{}"), *ways("concurrent.futures", "executor:{}")], (f"{TOP}/python/bench/functions.py", 20_000)
    package = {"PYTHONPATH": f"{TOP}/python", "GERFMUOD_LIBRARY": f"{TOP}/lib/{shared_object.SONAME}"}
    yield from compare(bench, "Python, 20,000 empty functions", [Process(sys.executable, size, own, package)])


def dag(bench):
    programs = Programs(bench.folder)
    for part in (cholesky, jacobi_and_sort, empty, bodies, small_runs):
        yield from part(bench, programs)
