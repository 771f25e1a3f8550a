"""Runs the parts of `make test` side by side, and prints what each comes to; with --gate the form of .ci/run.

With --gate the gate runs first, and library and programs are built from what it proved. The output of a part is printed when it ends.
The last lines are a table of the parts with their minutes and counts, what was skipped for lack of which package, and `N passed, M failed,
K skipped` over all. The status is 1 if a test failed or a part did not end within its time limit.
"""
import collections
import contextlib
import os
import re
import signal
import subprocess
import time
from concurrent.futures import ThreadPoolExecutor, as_completed

from . import repository, running

# the arguments of tools/dev for each part; those that take longest begin first
PARTS = {
    "mpi": "mpi --quick", "dag": "dag", "try": "try", "capi": "capi", "package": "package", "pages": "pages",
    "strange": "limits strange --quick", "refuse": "limits refuse --quick", "manners": "limits manners", "docs": "docs",
    "bench": "bench --check", "mutants": "mutants --stale", "tools": "test --tools", "mpi-check": "mpi-check", "ompt": "ompt",
}
TOOLS = f"{repository.TOP}/tools/dev"
# the time limits in minutes: of a part of the tests, and of the gate, which leaves them time within three hours
LIMIT, LIMIT_OF_GATE = 30, 150
COUNTS = re.compile(r"^(\d+) passed, (\d+) failed", re.M)
SKIPPED = re.compile(r"^SKIPPED for lack of (.*?): ", re.M)
ROW = "{:<10} {:>8} {:>8} {:>8} {:>8}"
# the processes of the parts that run
RUNNING = set()
# a part that has run: its name, its output, its seconds, and how many cases passed, failed and were skipped
Part = collections.namedtuple("Part", "name output seconds counts")


def counts_of(output, status):
    """Returns what the closing line of a part counts. A part without such a line, or with a status that it does not explain, failed."""
    found = COUNTS.findall(output)
    passed, failed = map(int, found[-1]) if found else (0, 1)
    return [passed, max(failed, int(status != 0)), len(SKIPPED.findall(output))]


def end_all(number, _):
    for process in list(RUNNING):
        with contextlib.suppress(ProcessLookupError):
            os.killpg(process.pid, signal.SIGKILL)
    os._exit(128 + number)


def run_part(name, command, minutes, is_shown):
    """Runs a part, and ends it and the processes below it at its time limit. Shows its output while it runs, or when it has ended."""
    began, lines = time.monotonic(), []
    streams = {"stdin": subprocess.DEVNULL, "stdout": subprocess.PIPE, "stderr": subprocess.STDOUT, "start_new_session": True}
    with subprocess.Popen(["timeout", "-s", "KILL", f"{minutes}m", *command], text=True, errors="replace", **streams) as process:
        RUNNING.add(process)
        for line in process.stdout:
            lines.append(line)
            if is_shown:
                print(line, end="", flush=True)
    RUNNING.discard(process)
    lines += [f"FAILED: {name} did not end within {minutes} minutes\n"] * (process.returncode == -signal.SIGKILL)
    output = "".join(lines)
    return Part(name, output, time.monotonic() - began, counts_of(output, process.returncode))


def run_parts(has_gate):
    """Yields each part when it ends, and shows its output; with the gate, library and programs are built from what it has proved."""
    if has_gate:
        began = time.time()
        yield run_part("gate", ["rt", "ci"], LIMIT_OF_GATE, True)
        yield run_part("lib", [TOOLS, "lib", "--since", str(began)], LIMIT, True)
    with ThreadPoolExecutor(repository.processors()) as pool:
        parts = [pool.submit(run_part, name, [TOOLS, *command.split()], LIMIT, False) for name, command in PARTS.items()]
        for ended in as_completed(parts):
            part = ended.result()
            print(f"== {part.name}\n{part.output}", end="", flush=True)
            yield part


def report(parts):
    print("\n" + ROW.format("part", "minutes", "passed", "failed", "skipped"))
    print("\n".join(ROW.format(part.name, f"{part.seconds / 60:.1f}", *part.counts) for part in parts))
    lacking = collections.Counter(package for part in parts for package in SKIPPED.findall(part.output))
    skipped = ", ".join(f"{package} ({count})" for package, count in lacking.most_common())
    print(f"Skipped for lack of packages: {skipped}" if lacking else "Nothing was skipped.")
    failing = [part.name for part in parts if part.counts[1]]
    print(f"FAILED: {' '.join(failing)}\n" * bool(failing), end="")
    passed, failed, skipped = map(sum, zip(*(part.counts for part in parts)))
    print(f"{passed} passed, {failed} failed, {skipped} skipped")
    return 1 if failed else 0


def run_own_tests(tally):
    if tally.has("pytest", "the tests of these tools"):
        result = running.run(["pytest", "-q", "-p", "no:cacheprovider", "tools/gerfmuod_dev"])
        output = result.out.decode(errors="replace")
        tally.passed += sum(map(int, re.findall(r"(\d+) passed", output)))
        tally.judge(not result.status, output)
    if tally.has("flake8", "the rules of .flake8"):
        result = running.run(["flake8", "tools", "python"])
        tally.judge(not result.status, result.out.decode(errors="replace"))


def arguments(parser):
    parser.add_argument("--gate", action="store_true", help="the gate first, and then the tests with what it proved")
    parser.add_argument("--tools", action="store_true", help="the tests of these tools alone")


def run(options):
    if options.tools:
        return run_own_tests(options.tally)
    for number in (signal.SIGINT, signal.SIGTERM):
        signal.signal(number, end_all)
    return report([*run_parts(options.gate)])
