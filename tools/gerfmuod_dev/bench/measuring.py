"""Measures programs that do the same work."""
import contextlib
import os
import re
import statistics
import subprocess
import sys
from typing import NamedTuple

from .. import running
from .rows import Row

# the measurements whose programs may print how many messages they sent
WITH_MESSAGES = ["run", "patterns"]
# the measurements whose programs run several times in a process, and time each run themselves: the option `--timing RUNS`
TIMED = ["run", "patterns", "body", "rod"]


class Case(NamedTuple):
    """What all programs of a comparison have to do: a number of units of work, on an input."""

    measurement: str
    name: str
    unit: str
    units: int
    stdin: str = os.devnull


class Candidate(NamedTuple):
    """A program with its command, nodes and workers; `counted` is the command whose instructions are counted, if it is another one."""

    program: str
    command: list
    nodes: int = 1
    workers: int = 1
    counted: list = None


class Kernel(NamedTuple):
    """One task of many iterations with which each program times an iteration in each round; `least` has its least nanoseconds."""

    case: Case
    candidates: list
    iterations: int
    least: dict

    def measure(self, bench):
        for candidate in self.candidates:
            time = min(cost_of(bench, candidate, self.case)[1]) / self.iterations
            self.least[candidate.program] = min(time, self.least.get(candidate.program, time))


class Cost(NamedTuple):
    """The cost of a process, or of one run of it if it times them: nanoseconds, those of processor, context switches, page faults, KiB."""

    time: float
    processor: float
    switches: float
    faults: float
    memory: float


class Bench(NamedTuple):
    """How programs are measured: peers, a folder for files, rounds (0: outputs are compared alone), runs of a process if it times them,
    busy processes, which cases."""

    peers: object
    folder: str
    rounds: int
    runs: int
    load: int
    counts: bool
    is_quick: bool
    only: str

    def file(self, name, write):
        """Returns the path of a file of the folder, which is written the first time."""
        path = f"{self.folder}/{name}"
        if not os.path.exists(path):
            with open(path, "w", encoding="ascii") as file:
                write(file)
        return path


def by_workers(program, command, configurations, counted=None):
    candidates = []
    for nodes, workers in configurations:
        options = ["--nodes", str(nodes), "--workers", str(workers)]
        candidates.append(Candidate(program, [*command, *options], nodes, workers, counted and [*counted, *options]))
    return candidates


def output_of(command, case):
    """Returns the lines that a program prints, and its messages apart, because some programs send none."""
    result = running.run(command, case.stdin)
    if result.status:
        raise SystemExit(f"{' '.join(command)}: {result.description()}")
    lines = [line for line in result.out.splitlines(keepends=True) if not line.startswith(b"nanoseconds ")]
    messages = [line for line in lines if line.startswith(b"messages ")] if case.measurement in WITH_MESSAGES else []
    return [line for line in lines if line not in messages], messages


def compare(case, candidates):
    """Exits with status 1 if a program's output, or its messages at a number of nodes, are not those of the first that prints them."""
    expected, sent = None, {}
    for candidate in candidates:
        for command in filter(None, [[*candidate.command, *timing(case, 2)], candidate.counted]):
            output, messages = output_of(command, case)
            expected = expected or output
            if output != expected or messages and messages != sent.setdefault(candidate.nodes, messages):
                raise SystemExit(f"{case.measurement}, {case.name}: another output: {' '.join(command)}")


def timing(case, runs):
    """Returns the option with which the programs of a case make this number of runs and time them, if they can."""
    return ["--timing", str(runs)] if case.measurement in TIMED else []


def cost_of(bench, candidate, case):
    """Runs a program in a process. Returns what that cost, and the nanoseconds of those runs whose time counts."""
    is_timed = case.measurement in TIMED
    command = [bench.peers.measure, *["--output"] * is_timed, *candidate.command, *timing(case, bench.runs)]
    with open(case.stdin, "rb") as stdin:
        output = subprocess.run(command, stdin=stdin, stdout=subprocess.PIPE, stderr=subprocess.DEVNULL, text=True).stdout
    numbers = dict(re.findall(r"^([a-z]+) (\d+)$", output, re.M))
    if numbers.get("status") != "0":
        raise SystemExit(f"{' '.join(candidate.command)}: wait returns {numbers.get('status')}")
    cost = Cost(*(int(numbers[name]) for name in Cost._fields))
    if not is_timed:
        return cost, [cost.time]
    first, *others = map(int, re.findall(r"^nanoseconds (\d+)$", output, re.M))
    if len(others) != bench.runs - 1:
        raise SystemExit(f"{' '.join(command)}: {len(others) + 1} times of {bench.runs} runs")
    runs = bench.runs
    return Cost(first, cost.processor / runs, cost.switches / runs, cost.faults / runs, cost.memory), others


def quantiles(numbers):
    """Returns the median, the lower and the upper quartile, and what nine of ten of the numbers stay below."""
    numbers = sorted(numbers)
    lower, median, upper = statistics.quantiles(numbers, n=4, method="inclusive") if len(numbers) > 1 else numbers * 3
    return median, lower, upper, numbers[int(0.9 * (len(numbers) - 1))]


def row_of(case, candidate, bench, measured, counted):
    median = Cost(*map(statistics.median, zip(*(cost for cost, _ in measured))))
    processor = quantiles([cost.processor / 1e6 for cost, _ in measured])
    own = (bench.runs, median.time / 1e6) if case.measurement in TIMED else (None, None)
    return Row(
        case.measurement, case.name, case.unit, case.units, candidate.program, candidate.nodes, candidate.workers,
        bench.load, len(measured), *quantiles([time / 1e6 for _, times in measured for time in times]),
        processor[0], float(median.switches), float(median.faults), median.memory / 1024, counted, *own, *processor[1:3],
    )


def measure(bench, case, candidates, kernel=None):
    """Returns a row for each program: their outputs are compared, and then all of them run once in each round."""
    places = ", ".join(dict.fromkeys(f"{candidate.nodes} by {candidate.workers}" for candidate in candidates))
    print(f"{case.measurement}: {case.name}, {places}", file=sys.stderr, flush=True)
    compare(case, candidates)
    if not bench.rounds:
        return []
    measured = [[] for _ in candidates]
    with busy_processes(bench.load):
        for _ in range(bench.rounds):
            for candidate, own in zip(candidates, measured):
                own.append(cost_of(bench, candidate, case))
            if kernel:
                kernel.measure(bench)
    rows = []
    for candidate, own in zip(candidates, measured):
        is_counted = bench.counts and not bench.load and candidate.nodes * candidate.workers == 1
        counted = running.instructions(candidate.counted or candidate.command, case.stdin) if is_counted else None
        row = row_of(case, candidate, bench, own, counted)
        rows.append(row._replace(kernel_nanoseconds=kernel.least[candidate.program]) if kernel else row)
    return rows


@contextlib.contextmanager
def busy_processes(count):
    busy = [subprocess.Popen([sys.executable, "-c", "while True: pass"]) for _ in range(count)]
    try:
        yield
    finally:
        for process in busy:
            process.kill()
            process.wait()
