"""Compiles the tool for OpenMP programs, capi/preload/openmp, with its programs, and tries it.

Sound programs have to pass with 1, 4 and 12 threads, also one of gcc, and with the tool under ThreadSanitizer. A broken runtime,
changed events of a sound one, and a program that hangs have to be named; a trace has to be sound. With --full two programs run 50
times, and two million tasks between two barriers. Needs the library, clang and its libomp (`tools/bench-packages`): what is missing is
skipped. `tools/dev bench preloaded` measures what the tool costs.
"""
import itertools
import json
import os
import re
import tempfile

from . import library, repository, running, summary
from .c_programs import start, succeeds

FOLDER, WHAT, TOOL, BREAKER = "capi/preload/openmp", "the tool for OpenMP programs", "libgerfmuod_ompt.so", "libbroken.so"
OMP, THREADS = "/usr/lib/x86_64-linux-gnu/libomp.so.5", [1, 4, 12]
MAKE = ["make", "-s", "-j4", "-C", FOLDER, "CC=clang", "WERROR=-Werror", "programs"]
# programs and patterns of what is printed: of sound runs; and of a broken runtime, or of a sound one one of whose events was changed
SOUND, BROKEN = json.loads(repository.text_of(f"{repository.TOP}/tools/data/ompt.json")).values()


def is_built(tally, folder, *options):
    """Compiles the tool and its programs to a folder; counts and returns whether that succeeds."""
    result = start([*MAKE, f"OUT={folder}", *options])
    tally.judge(not result.status, f"make of {FOLDER}: {result.out.decode(errors='replace')[:2000]}")
    return not result.status


def expect(tally, folder, command, status, text, threads=4, words="status=3,hang=60", **more):
    """Runs a program with the tool, and counts whether it ends with this status and prints a pattern, and of faults what it should."""
    how, name, *arguments = command.split() if ":" in command else ["", *command.split()]
    own = {"OMP_NUM_THREADS": str(threads), "OMP_TOOL_LIBRARIES": f"{folder}/{BREAKER if how else TOOL}", "GERFMUOD_OMP": words}
    environment = {**os.environ, **own, "BROKEN": how, "BROKEN_TOOL": f"{folder}/{TOOL}", **more}
    result = start([f"{folder}/{name}", *arguments], env=environment, timeout=tally.seconds)
    output = result.out.decode(errors="replace")
    is_well = result.status == status and re.search(text, output) and (status or "; 0 faults\n" in output)
    tally.judge(is_well, f"{command}, {threads} threads: status {result.status}, expected {status} and {text}: {output[:2000]}")


def try_others(tally, folder):
    """Checks a trace and times, a program that gcc compiled, over libomp, and the tool with ThreadSanitizer."""
    expect(tally, folder, "cholesky 8 32", 0, "120 tasks, 252 dep(.*\n)*.*longest path", 4, f"report,trace={folder}/t,times={folder}/j")
    tally.judge(summary.summary(repository.text_of(f"{folder}/j")), "no times")
    if os.path.exists("bin/tp"):
        judged = running.run(["bin/tp", "audit"], stdin=f"{folder}/t")
        tally.judge(not judged.status, f"bin/tp audit of the trace of cholesky: {judged.description()}")
    if os.path.exists(OMP) and tally.has("gcc", "a program that gcc compiled"):
        succeeds(["gcc", "-O2", "-fopenmp", f"{FOLDER}/programs/fibonacci.c", "-o", f"{folder}/gcc"])
        expect(tally, folder, "gcc 15", 0, "1972 tasks, ", LD_PRELOAD=OMP)
    with tempfile.TemporaryDirectory() as own:
        checked = is_built(tally, own, "CFLAGS=-O1 -g -fsanitize=thread", "PROGRAM_CFLAGS=-O1", "LDFLAGS=-fsanitize=thread")
        for command in ("clauses", "cholesky 6 16", "fibonacci 10", "random 9 300") if checked else ():
            expect(tally, own, command, 0, "", 12, TSAN_OPTIONS="ignore_noninstrumented_modules=1")


def try_all(tally, folder, is_full):
    for command, text in BROKEN.items():
        expect(tally, folder, command, 3, text, words="status=3,hang=2")
    long = ["cholesky 8 32", "fibonacci 15"] * (49 if is_full else 0)
    for command, threads in itertools.product([*SOUND, *long], THREADS):
        expect(tally, folder, command, 0, SOUND[command], threads)
    try_others(tally, folder)
    count = 2_000_000 if is_full else 400_000
    expect(tally, folder, f"barriers {count} 1", 0, f"{count} tasks, 0 dependences; 1 end judged")
    print(f"{len(BROKEN)} faults named; {len(SOUND)} sound programs with {THREADS} threads; {count:,} tasks between two barriers")


def arguments(parser):
    parser.add_argument("--full", action="store_true", help="the long form: 50 runs, and two million tasks")


def run(options):
    tally, folder, reason = options.tally, options.temporary, library.reason_not_built()
    if not tally.has("clang", WHAT):
        return
    if not succeeds("clang -fopenmp -fsyntax-only -include omp-tools.h -xc /dev/null".split()):
        tally.skips(WHAT, "libomp-dev")
    elif reason:
        tally.fails(f"{reason}: {WHAT} was not linked. make lib builds it")
    elif is_built(tally, folder):
        try_all(tally, folder, options.full)
