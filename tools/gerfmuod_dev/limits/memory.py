"""Runs the built programs, and the tests of memory, without enough memory, and measures how much a stencil has at a time."""
import collections
import itertools
import os
import pathlib
import re
import sys

from .. import running
from ..bench import inputs
from ..repository import text_of
from ..running import short

LINE_OF_A_POOL = re.compile(rb"pool [0-7] [^ ]+ (ended tasks [0-9]+ messages [0-9]+|refused 17 NoMemory)")
# what the programs may print if they are out of memory; `samples draw` prints a line of `tp` until it has read its arguments
MESSAGES = {"tp": [b"refused 17 NoMemory\n"], "samples": [b"there is no memory\n"]}
MESSAGES["samples draw"] = [*MESSAGES["tp"], *MESSAGES["samples"]]
# a command line, its input, and in `refuse` whether the quick form has it, in `memory` by how many percent its limit grows
COMMAND = re.compile(r"^(?:(quick|full|\d+): )(.*?)(?: < (\w+))?$", re.M)
WHAT, ROW = "allocations that fail in turn", ["3 -1 4 1 -5 9 2 6"]
# the first limit in KB, and how many there are
FIRST_LIMIT, LIMITS = 8192, 50
# crates with tests that repeat a call which ran out of memory, after they have checked that nothing changed
CRATES = ["test_whole"]
TESTS = re.compile(
    r"^(memory::memory_that_is_refused_changes_nothing|slots::a_refused_growth_loses_nothing|two_nodes::a_node_refused_memory_is_as_before"
    r"|two_nodes::a_pool_is_reopened_and_runs_again|refused_runs::\w+): ", re.M
)
# the cells of a rod or a grid, its steps, and by how many rows, of 8 bytes a cell, a longer run may have more than one of one step
CELLS, WIDTH, STEPS, ROWS = 256_000, 1_000, [1, 2, 3, 10, 30, 100, 1_000], 3


def steps_of_tasks(count):
    for number in range(count):
        task, node, other = number * 3001 % 1_000_000, number % 8, (number + 1) % 8
        yield f"insert {node} {task} 1\nsupply {task}\nbegin {task}\ndone {task}"
        yield f"send {node} {other} {number}\nrecv {other} {number}\nend {other} {number}\nopen 0 {number}"


def commands(name, programs, folder):
    """Yields the commands of a stored table: the word before each, its text, itself, and the path of its input, which is written."""
    steps, long_steps = [*steps_of_tasks(300)], [*steps_of_tasks(30_000)]
    for path, lines in {
        "script": ["nodes 8", *steps], "trace": ["trace 1", "nodes 8", *steps], "fault": ["nodes 1", "ready"],
        "long_script": ["nodes 8", *long_steps], "long_trace": ["trace 1", "nodes 8", *long_steps],
        "drawn": ["trace 1", "nodes 8", *steps[:80]], "rod": range(0, 401, 7), "long_rod": range(1, 4001),
        "matrices": [*ROW * 8, "", *ROW * 8], "grid": ROW * 8,
    }.items():
        running.write(f"{folder}/{path}", lines)
    for word, line, stdin in COMMAND.findall(text_of(f"tools/data/limits/{name}")):
        program, *rest = line.split()
        yield word, line, [getattr(programs, program), *rest], f"{folder}/{stdin}" if stdin else os.devnull


def is_refused(result, line):
    """Whether a run has status 3, and one of the messages alone, or a line for each pool, one of which was refused."""
    lines, (program, *rest) = result.out.splitlines(), line.split()
    is_of_pools = any(line.endswith(b" NoMemory") for line in lines) and all(map(LINE_OF_A_POOL.fullmatch, lines))
    messages = MESSAGES.get(" ".join([program, *rest[:1]]), MESSAGES[program])
    return result.status == 3 and (not result.out and result.err in messages or not result.err and is_of_pools)


def judge(tally, line, expected, runs, kinds):
    """Counts whether each run, given with what it lacks, was refused or is as expected, and whether all kinds came."""
    counts = collections.Counter()
    for lack, result in runs:
        # (a program that cannot read the environment does not know that it should be quiet, and says why)
        is_whole = result[:2] == expected[:2] and (not result.err or result.err.startswith(b"reason: "))
        kind = "refused" if is_refused(result, line) else "whole" if is_whole else "wrong"
        counts[kind] += 1
        tally.judge(kind != "wrong", f"{line}, {lack}: {result.description()}")
    print(f"{line}, up to {lack}: refused {counts['refused']} times, whole {counts['whole']} times", flush=True)
    tally.judge(all(counts[kind] for kind in kinds), f"{line} was not tried both with and without enough memory")


def refusing(command, stdin, library, folder, also_later=False):
    """Yields the number of the allocation that fails, and the result: for each allocation, and last for one more than the run has."""
    report = f"{folder}/report"
    for number in itertools.count(1):
        pathlib.Path(report).unlink(missing_ok=True)
        variables = {"REFUSE": str(number), "REFUSE_REPORT": report, "LD_PRELOAD": library, **({"REFUSE_ON": "1"} if also_later else {})}
        yield number, running.run(command, stdin, env={**os.environ, **variables})
        if not os.path.exists(report):
            return


def refuse(tally, options, folder):
    """Fails each allocation of the built programs in turn.

    Each program runs with its first allocation failing, then its second, until it has no more; and then with all allocations
    from there on failing. Each time it has to print its whole output, or else that it is out of memory on standard error and
    nothing on standard output, with status 3; `pools` may also print a line for each pool. Each command has to be refused at
    least once. Needs a C compiler. With --quick it tries a few commands, each with one allocation failing at a time.
    """
    library = running.preload_library(tally, "refuse", folder, WHAT)
    for size, line, command, stdin in commands("refuse", options, folder) if library else ():
        for also_later in (False, True) if not options.quick else (False,) if size == "quick" else ():
            form = f"allocation {{}}{' and all after it' * also_later} failing"
            runs = ((form.format(number), result) for number, result in refusing(command, stdin, library, folder, also_later))
            judge(tally, line, running.run(command, stdin), runs, ["refused"])


def refuse_tests(tally, _, folder):
    """Fails each allocation of the proved tests of memory in turn.

    Each time a test has to pass: it repeats a call that ran out of memory, after it has checked that nothing changed. Prints the number of
    allocations of each test, and how often each call failed. Needs a C compiler, and the programs that `rt test` leaves in crates/*/out.
    """
    library, calls = running.preload_library(tally, "refuse", folder, WHAT), collections.Counter()
    for program in (f"crates/{crate}/out/{crate}_tests" for crate in CRATES if library):
        tests = TESTS.findall(running.run([program, "--list"]).out.decode(errors="replace"))
        tally.judge(tests, f"{program} is missing, or has no tests of memory: `rt test` builds it")
        for test in tests:
            for number, result in refusing([program, test], os.devnull, library, folder):
                is_well = not result.status and re.search(rb"^test result: ok", result.out, re.M)
                tally.judge(is_well, f"{test}, allocation {number} failed: {short(result.err, 300)}")
                calls.update(re.findall(r"^refused: (.*)", result.err.decode(errors="replace"), re.M))
            print(f"{test}: {number - 1} allocations", flush=True)
    print("\n".join(f"{count:7} {call}" for call, count in sorted(calls.items())))


def address_space(tally, options, folder):
    """Runs the program in small address spaces.

    Each command runs at 50 limits of its address space (as `ulimit -v` sets them) from 8 MB up. Each time it has to print its
    whole output, or else that it is out of memory. It has to be refused at least once, and to succeed at least once.
    """
    for growth, line, command, stdin in commands("memory", options, folder):
        grown = itertools.accumulate(range(LIMITS - 1), lambda limit, _: limit + limit * int(growth) // 100, initial=FIRST_LIMIT)
        runs = ((f"{limit} KB", running.run(["prlimit", f"--as={1024 * limit}", *command], stdin)) for limit in grown)
        judge(tally, line, running.run(command, stdin), runs, ["refused", "whole"])


def live(tally, options, folder):
    """Measures how much memory a stencil has at a time, by its steps.

    Runs `samples heat` and `relax` for 1 to 1,000 steps, at one node with one worker and at two with two. A run of more steps may have only
    some rows more memory at a time than one of a single step: a value is dropped once its last reader has run.
    """
    library = running.preload_library(tally, "live", folder, "the memory that a stencil has at a time")
    with open(f"{folder}/heat", "w", encoding="utf-8") as file:
        inputs.write_cells(file, CELLS)
    running.write(f"{folder}/relax", (" ".join(str(row * column % 1009) for column in range(WIDTH)) for row in range(CELLS // WIDTH)))
    environment, first = {**os.environ, "LD_PRELOAD": library or "", "LIVE_REPORT": f"{folder}/report"}, None
    for count, (name, size), steps in itertools.product("12", (("heat", "8000"), ("relax", "8")), STEPS) if library else ():
        command = [options.samples, name, str(steps), size, "--nodes", count, "--workers", count]
        result = running.run(command, f"{folder}/{name}", env=environment)
        most = int.from_bytes(pathlib.Path(f"{folder}/report").read_bytes(), sys.byteorder)
        first = most if steps == STEPS[0] else first
        line = f"{' '.join(command[1:])}: {most / 1e6:.1f} MB at a time"
        print(line, flush=True)
        tally.judge(not result.status and most <= first + ROWS * 8 * CELLS, f"{line}, the first run {first} bytes: {result.description()}")
