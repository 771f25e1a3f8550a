"""Compiles and runs the programs of task graphs in C, C++ and Fortran, and the Python package.

They are linked with lib/libgerfmuod.a, which has to be of these sources (`make lib` builds it), or with the library of another
folder, and run as the second part of tools/data/capi.json says: under valgrind and with sanitizers, too; those in Python as
tools/data/python.json says. Programs with a fault must fail. What teams record of their runs is compared with the traces. What is not
installed is skipped (`tools/bench-packages`). With --full only what has a long form runs, with --processes only Python over MPI.
"""
import json
import os
import re
import shutil
import sys
import tempfile

from . import browser, library, plots, profiles, repository, shared_object, summary
from .c_programs import SANITIZERS, Build, Program, Run, judge, programs, run_programs, start, succeeds
from .event_format import Profile
from .mpi_graphs import ROOT

# of random graphs whose profiles are checked
PROFILED, LONG_PROFILED = 40, 400
CHOLESKY = Program("examples/cholesky.c", (), (shared_object.TEAM,))
CHOLESKY_OVER_BLAS = Program("examples/cholesky.c", ("-DHAVE_BLAS", "-lopenblas"), (shared_object.TEAM,))
STORM, GRAIN = Program("tests/graph/storm.c", ("-lcmocka",), (shared_object.TEAM,)), Program("bench/grain.c", (), (shared_object.TEAM,))


def check_profiles(tally, folder):
    """Checks the profiles in a folder, and whether faults of one are found, and removes them; returns how many there were."""
    texts = {}
    for path in (path for path in repository.files_in(folder) if path.endswith(".json")):
        texts[path] = repository.text_of(path), repository.text_of(path.replace(".json", ".trace"), "")
        found = profiles.faults(texts[path][0], profiles.team_faults, texts[path][1])
        tally.judge(not found, f"{path}: {'; '.join(found)[:2000]}")
        os.remove(path)
    sample = next(((text, trace) for text, trace in texts.values() if '"task"' in text and " ended " in trace), None)
    for number, text in enumerate(profiles.spoiled(sample[0]) if sample else ()):
        tally.judge(profiles.faults(text, profiles.team_faults, sample[1]), f"fault {number} of a profile was not found")
    return len(texts)


def are_near(rows, others):
    """Whether these lines have the same numbers, but for the last digit of a share."""
    numbers, expected = ([[float(number) for number in re.findall(r"[\d.]+", row)] for row in lines] for lines in (rows, others))
    are_many = [*map(len, numbers)] == [*map(len, expected)]
    return are_many and all(abs(a - b) < 0.11 for pair in zip(numbers, expected) for a, b in zip(*pair))


def check_texts(tally, build, folder):
    """Runs Cholesky with times: `tools/dev summary`, the plot and DevTools have to have the numbers of the library's own summary."""
    path, file = build.compiled(tally, CHOLESKY), f"{folder}/cholesky.json"
    result = path and start([path, "--profile", file, "256", "32", "1", "4"])
    if not result or result.status:
        tally.fails(f"cholesky --profile: {result and result.description(2000)}")
        return
    text = repository.text_of(file)
    rows = summary.summary(text)[1:]
    # (what follows the summary is the time of the run as the program prints it)
    own = result.out.decode().partition("runtime\n")[2].splitlines()[: len(rows)]
    tally.judge(are_near(own, rows), f"the summary of the library: {own}, of tools/dev summary: {rows}")
    title = plots.plot_of_run(plots.rows_of_run(text, 8))["title"]
    critical = Profile(text).about["critical_path_us"] / 1000
    tally.judge(title.endswith(f"the critical path: {critical:.1f} ms"), f"the timeline: {title}; the file: {critical} ms")
    if browser.is_here(tally, "the times of Cholesky in its DevTools"):
        with browser.Browser() as chromium:
            browser.check_events(tally, chromium, {"cholesky --profile": text})


def run_profiles(tally, build, is_full):
    """Runs programs that record times, and checks what they write: random graphs, also with ThreadSanitizer, and two examples."""
    rounds, folder = str(LONG_PROFILED if is_full else PROFILED), tempfile.mkdtemp(dir=build.folder)
    own = [
        (STORM, [], [rounds, "1", folder], f"{rounds} rounds"),
        (GRAIN, [], ["--profile", f"{folder}/grain.json", "three", "5000", "10", "1", "4"], "critical path"),
        (STORM, SANITIZERS["thread"], [rounds, "2", folder], f"{rounds} rounds"),
    ]
    check_texts(tally, build, folder)
    count = check_profiles(tally, folder)
    for program, options, arguments_of, output in own:
        if path := build.compiled(tally, program, *options) if build.can_link(*program.options, *options) else None:
            judge(tally, [path, *arguments_of], Run([], 0, output))
            count += check_profiles(tally, folder)
    tally.judge(count >= 2 * PROFILED or not build.can_link(*STORM.options), f"only {count} profiles were checked")
    print(f"the profiles of {count} runs, read as JSON: each task of the trace once, no slices that overlap")


def run_python(tally, build, counts):
    """Checks the names that the shared object exports, and runs the tests and the examples of the Python package."""
    path, pythons = f"{build.folder}/{shared_object.SONAME}", [sys.executable, shutil.which("python3", path="/usr/bin")]
    shared_object.link(f"{build.library}/libgerfmuod.a", path)
    foreign = sorted(name for name in shared_object.symbols(path, "-D") if not name.startswith("gerfmuod_"))
    tally.judge(not foreign, f"{path} exports {' '.join(foreign)}")
    package = {"GERFMUOD_LIBRARY": path, "PYTHONPATH": f"{repository.TOP}/python", "PYTHONDONTWRITEBYTECODE": "1"}
    environment, rows = {**os.environ, **ROOT, **package}, json.loads(repository.text_of("tools/data/python.json"))
    over_mpi = [row for row in rows if row[2].startswith("mpirun")]
    rows = [[*about, re.sub("-n [0-9]+", f"-n {count}", line), output] for count in counts for *about, line, output in over_mpi] or rows
    for modules, packages, line, output in rows:
        if not (python := next((python for python in filter(None, pythons) if succeeds([python, "-c", f"import {modules}"])), None)):
            tally.skips(line, packages)
        elif tally.has(line.split()[0], line):
            judge(tally, re.sub(r"python3(?= )", python, line).split(), Run([], 0, output), env=environment)
    print(f"{shared_object.SONAME} and the Python package: its tests and examples")


def arguments(parser):
    parser.add_argument("--library", metavar="FOLDER", help="use libgerfmuod.a of this folder, whatever it was built from")
    parser.add_argument("--full", action="store_true", help="the long form of the fuzz and of random graphs alone")
    parser.add_argument("--processes", metavar="N", nargs="+", default=[], help="only the Python programs over MPI")


def run(options):
    tally, build = options.tally, Build(options.library or "lib", options.temporary)
    if reason := "" if options.library else library.reason_not_built():
        return tally.fails(f"{reason}: no program of task graphs was linked and run. make lib builds it")
    tally.seconds *= 10 if options.full else 1
    if not options.processes:
        run_programs(tally, build, programs("dag", options.full))
        run_profiles(tally, build, options.full)
    return None if options.full else run_python(tally, build, options.processes)
