"""Runs the sample pools again and again, and audits their traces.

Each run is of one of six pools, at 8 nodes with 8 workers each or at a random number of both. Its table, its number of tasks and its end
have to be those of one node with one worker. It is repeated with its trace, which has to be audited as sound, with each task done, each
message received, and the end announced. At the first run that differs, prints it and ends with status 1; an unsound trace is stored.
"""
import os
import random
import re
import sys
import time

from . import running

POOLS = ["product:8:2:0", "product:16:2:7", "wavefront:16:16:0", "wavefront:5:31:9", "reduce:64:0", "reduce:256:41"]
AUDITED = r"steps \d+\ntasks {0} done {0}\nmessages (\d+) received \1\nended \d+\n"
UNSOUND = "unsound-trace"


def output_of(program, *run):
    """Returns what a run prints without its number of messages, which depends on the nodes."""
    result = running.run([program, "run", *run])
    return re.sub(r"^messages .*\n", "", (result.out + result.err).decode(errors="replace"), flags=re.M)


def fault_of(program, run, expected):
    output, tasks = output_of(program, *run), re.search(r"^tasks (\d+)\nended$", expected, re.M)
    if output != expected or not tasks:
        return f"it prints\n{output}and not\n{expected}"
    trace = running.run([program, "run", *run, "--trace"])
    audited = running.run([program, "audit"], trace.out)
    if not trace.status and not audited.status and re.fullmatch(AUDITED.format(tasks[1]), audited.out.decode(errors="replace")):
        return ""
    running.write(UNSOUND, trace.out)
    return f"its trace is stored as {UNSOUND}; the audit of it has {audited.description()}"


def arguments(parser):
    running.program_argument(parser)
    parser.add_argument("--runs", type=int, metavar="N", default=600, help="how many runs there are (600)")
    parser.add_argument("--seconds", type=int, metavar="N", help="how long it takes instead")
    parser.add_argument("--seed", type=int, metavar="N", default=os.getpid(), help="the seed (the number of its process)")


def run(options):
    running.require(options.tp)
    print(f"seed {options.seed}", flush=True)
    generator, runs, end = random.Random(options.seed), 0, time.monotonic() + (options.seconds or 0)
    expected = {pool: output_of(options.tp, pool) for pool in POOLS}
    while runs < options.runs if options.seconds is None else time.monotonic() < end:
        runs += 1
        pool, (nodes, workers) = generator.choice(POOLS), (8, 8) if runs % 2 else (generator.randint(1, 8), generator.randint(1, 8))
        run_of_pool = [pool, "--nodes", str(nodes), "--workers", str(workers)]
        if fault := fault_of(options.tp, run_of_pool, expected[pool]):
            print(f"run {runs}, {' '.join(run_of_pool)}: {fault}", file=sys.stderr)
            return 1
    print(f"{runs} runs, all alike, and each trace sound and ended")
    return 0
