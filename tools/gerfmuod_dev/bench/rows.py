"""The rows of measurements, as CSV files."""
import csv
import io
import os
from typing import NamedTuple

from ..repository import TOP

FOLDER = f"{TOP}/docs/measurements"


class Row(NamedTuple):
    """A program on a case, with its nodes and workers; `load` is the number of busy processes that ran at the same time.

    A number that was not measured is None. `milliseconds` is the median of the rounds, as are processor time, context
    switches, page faults and memory. If `runs` is not None, each process made that many runs and timed them itself:
    `milliseconds` is the median of all runs but the first of each process, whose median is `first_milliseconds`, and
    processor time, switches and faults are those of a process divided by its runs. `kernel_nanoseconds` is the least time of
    an iteration of the kernel until then, which the program is asked for in each round.
    """

    measurement: str
    case: str
    unit: str
    units: int
    program: str
    nodes: int
    workers: int
    load: int
    rounds: int
    milliseconds: float
    lower_quartile: float
    upper_quartile: float
    slowest_tenth: float
    processor_milliseconds: float
    context_switches: float
    page_faults: float
    MiB: float
    instructions: int
    runs: int = None
    first_milliseconds: float = None
    processor_lower_quartile: float = None
    processor_upper_quartile: float = None
    kernel_nanoseconds: float = None

    @property
    def where(self):
        return f"{self.nodes} by {self.workers}"


class ProcessRow(NamedTuple):
    """One detector for distributed programs in one case, with so many processes. A number that was not measured is None.

    Microseconds are from the last piece of work to the last process that knows the end, or those of a run: the median of the rounds,
    their quartiles, and what nine rounds of ten stay below. Control messages, waves and steps are those of one round: waves are reductions
    or rounds of the token too, and steps are those of a network in which a control message takes one. A row with tasks is of a pattern.
    """

    measurement: str
    case: str
    detector: str
    processes: int
    rounds: int
    microseconds: float
    lower_quartile: float
    upper_quartile: float
    slowest_tenth: float
    control_messages: float
    waves: float
    steps: int
    nanoseconds_a_call: float
    instructions: float
    tasks: int = None
    kernel_nanoseconds: float = None

    @property
    def as_pattern(self):
        """The row of a pattern as one of `patterns`: a process is a node with one worker."""
        own = "patterns", self.case, "task", self.tasks, self.detector, self.processes, 1, 0, self.rounds
        return Row(*own, *(time / 1000 for time in self[5:9]), *[None] * 9, self.kernel_nanoseconds)


class Origin(NamedTuple):
    """When and where a measurement was made, how long it took, and whether the machine was at rest.

    The load average is that before the series; `others` is how many processors other programs used during the measurement;
    `seconds_to_rest` is how long the load average took to fall again after the series, None if too long. `marked` says why
    the rows are not to be trusted, if they were stored all the same.
    """

    measurement: str
    date: str
    commit: str
    form: str
    rounds: int
    seconds: int
    load_average: float
    processor: str
    processors: int
    GiB: float
    system: str
    compilers: str
    instructions_by: str
    others: float = None
    seconds_to_rest: int = None
    marked: str = ""


def named(kind):
    return [field.replace("_", " ") for field in kind._fields]


def spelt(value):
    if isinstance(value, float):
        return f"{value:.4g}" if abs(value) < 1000 else f"{value:.0f}"
    return "" if value is None else str(value)


def text_of(rows, kind=Row):
    text = io.StringIO()
    lines = csv.writer(text, lineterminator="\n")
    lines.writerow(named(kind))
    lines.writerows([spelt(value) for value in row] for row in rows)
    return text.getvalue()


def read(path, kind=Row):
    """Returns the rows of a file; none if it does not exist. Columns of the end may be missing."""
    if not os.path.exists(path):
        return []
    with open(path, encoding="utf-8", newline="") as text:
        first, *lines = csv.reader(text)
    if first != named(kind)[: len(first)]:
        raise SystemExit(f"{path}: its columns are not {','.join(named(kind))}")
    kinds = kind.__annotations__.values()
    try:
        # (a number that is missing is None)
        return [kind(*(of(text) if text or of is str else None for text, of in zip(line, kinds))) for line in lines]
    except (TypeError, ValueError) as error:
        raise SystemExit(f"{path}: a row cannot be read: {error}") from None


def write(path, rows, kind=Row):
    os.makedirs(os.path.dirname(path) or ".", exist_ok=True)
    with open(path, "w", encoding="utf-8") as file:
        file.write(text_of(rows, kind))


def kind_of(measurement):
    return ProcessRow if measurement in ("processes", "preloaded") else Row


def kept(measurement):
    return read(f"{FOLDER}/{measurement}.csv", kind_of(measurement))


def origins():
    return {origin.measurement: origin for origin in read(f"{FOLDER}/origins.csv", Origin)}


def keep(measurement, rows, origin):
    write(f"{FOLDER}/{measurement}.csv", rows, kind_of(measurement))
    keep_origins({measurement: origin})


def keep_origins(some):
    write(f"{FOLDER}/origins.csv", {**origins(), **some}.values(), Origin)
