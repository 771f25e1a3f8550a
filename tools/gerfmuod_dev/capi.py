"""Checks the C library: its headers and all programs of capi/ with each compiler, and the programs of the detectors linked with it.

First each compiler on this machine checks the headers as C99, C11, C++98 to C++17, with and without ThreadSanitizer, and the
programs in C and C++, with all warnings on. If lib/libgerfmuod.a is there and was built from these sources (`make lib` builds it), it
compares the names that the archive and the shared object define with what the headers declare. Then it runs the programs of the
first part of tools/data/capi.json. The table that damages.c prints is compared with docs/OTHER-RUNTIMES.md. What is not installed is
skipped. With --full only the fuzz runs, in its long form. With --bench it runs no program, but measures and prints what a step costs:
instructions, which valgrind counts at two numbers of steps, memory, nanoseconds, locks, and the depth of the stack.
"""
import re
import shutil
import sys

from . import library, repository, shared_object
from .c_programs import Build, Program, check_sources, output_of, programs, run_programs, start
from .repository import text_of
from .running import Tally, instructions

STEPS = 999_999
PAGE = "docs/OTHER-RUNTIMES.md"
# the kinds of steps of bench/steps.c
KINDS = ("tasks", "messages", "makers", "sparse", "large", "hashed")
# those that need MPI, OpenMP or a peer
ELSEWHERE = re.compile("capi/mpi/|capi/bench/peers/|capi/preload/|capi/include/gerfmuod/mpi")


def check_symbols(tally):
    declared = shared_object.declared()
    for path, options in ((library.ARCHIVE, []), (library.SHARED, ["-D"])):
        differing = sorted(declared ^ shared_object.symbols(path, *options))
        tally.judge(not differing, f"{path} and the headers differ in {' '.join(differing)}")
    print(f"{library.ARCHIVE} and {library.SHARED}: {len(declared)} names, as the headers declare them")


def check_page(tally, build):
    """Compares the table that damages.c prints with that of the page."""
    path = build.compiled(tally, Program("examples/damages.c"))
    table = start([path]).out.decode() if path else ""
    tally.judge(table and table in text_of(PAGE), f"damages.c fails, or {PAGE} has another table than\n{table}")
    print(f"{PAGE}: its table, which damages.c prints")


def bench(build):
    program = build.compiled(Tally(), Program("bench/steps.c")) or sys.exit(1)
    print(f"{STEPS:,} steps at 8 nodes, called from C:{'' if shutil.which('valgrind') else ' no instructions without valgrind'}")
    for kind in KINDS:
        commands = [[program, "count", kind, str(steps)] for steps in (0, STEPS)]
        none, all_steps = map(instructions, commands)
        if none and all_steps:
            print(f"{kind}: {(all_steps - none) / STEPS:.1f} instructions a step, including the loop and the close")
        none, all_steps = (int(output_of(command)) for command in commands)
        print(f"{kind}: {(all_steps - none) / STEPS:.1f} bytes a step", flush=True)
    for arguments_of in ["time", str(STEPS)], ["locks", str(STEPS)], ["stack"]:
        print(output_of([program, *arguments_of]), end="", flush=True)
    return 0


def arguments(parser):
    parser.add_argument("--bench", action="store_true", help="measure what a step costs")
    parser.add_argument("--full", action="store_true", help="the long form of the fuzz alone")


def run(options):
    reason, tally = library.reason_not_built(), options.tally
    if options.bench and reason:
        sys.exit(f"{reason}: make lib builds it")
    if not options.bench and not options.full:
        sources = [path for path in repository.files_in("capi") if not ELSEWHERE.match(path)]
        check_sources(tally, [path for path in library.HEADERS if path.endswith((".h", ".hpp")) and "gerfmuod/mpi" not in path], sources)
        print("the headers and programs of capi/: checked as C99, C11, C++98 to C++17")
    if reason:
        return tally.fails(f"{reason}: no program of capi/ was linked and run. make lib builds it")
    build = Build("lib", options.temporary)
    if options.bench:
        return bench(build)
    tally.seconds *= 10 if options.full else 1
    run_programs(tally, build, programs("capi", options.full))
    if not options.full:
        check_symbols(tally)
        check_page(tally, build)
    return None
