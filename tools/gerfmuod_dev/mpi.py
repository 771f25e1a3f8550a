"""Runs the programs of capi/mpi over MPI, linked with the proved library.

uts_mpi.c searches two trees whose numbers of nodes and leaves are known, T1 and T3, with 1, 2, 4, 8 and 16 processes here. Then it searches
a small tree with each hand-written detector, and with each of three faults: with a fault it has to miss nodes or not to end, which shows
that the check can fail, as with mpi_cholesky.c. The events of a small search are checked, and latency.c. Then come the programs of
`mpi_graphs`, over MPICH as well. With --quick all is small, and what is missing is skipped (`tools/mpi-packages`).
"""
import collections
import itertools
import os
import shutil
import sys

from . import library, mpi_graphs, profiles, repository, running
from .c_programs import start
from .mpi_graphs import ENVIRONMENT, MPIS, command_of, compiled, judge_run

# the faults that uts_mpi.c has as an argument; mpi_cholesky.c has the second one
FAULTS = ["late", "early", "uncounted"]
# the hand-written detectors, with which `tools/dev bench processes` compares the proved one
PEERS = ["hand", "safra", "reductions"]
SEEDS, COMMANDS = 5, (MPIS[0].compiler, MPIS[0].runner[0])
# what to run: the trees, the order of the matrix and of its tiles, the numbers of processes, and the number of random graphs
Size = collections.namedtuple("Size", "trees matrix counts seeds")
QUICK = Size(["T0"], ["256", "32"], [1, 3], "60")
FULL = Size(["T1", "T3"], ["1024", "64"], [1, 2, 4, 8, 16], "1000")


def judge_fault(tally, program, runs, seconds):
    """Counts whether a program with a fault misses something, or does not end, in one of these runs."""
    commands = [command_of(MPIS[0], 4, program, arguments_of, seconds) for arguments_of in runs]
    has_failed = any(start(command, env=ENVIRONMENT, timeout=seconds + running.SECONDS).status for command in commands)
    tally.judge(has_failed, f"{os.path.basename(program)} with a fault passed each time: {runs}")


def run_programs(tally, folder, size):
    """Searches the trees with each number of processes, and a small one with each detector and each fault; then come the other programs."""
    program, idle, cholesky = (compiled(MPIS[0], folder, name) for name in ("uts_mpi", "latency", "mpi_cholesky"))
    path = f"{folder}/events.json"
    for tree, processes in itertools.product(size.trees, size.counts):
        judge_run(tally, MPIS[0], processes, program, [tree])
    for processes in QUICK.counts:
        judge_run(tally, MPIS[0], processes, program, ["--profile", path, "T0"])
        # (an offset of a clock is not exact)
        found = profiles.faults(repository.text_of(path, ""), profiles.process_faults, processes, has_one_clock=False)
        tally.judge(not found, f"events of {processes} processes: {'; '.join(found)[:2000]}")
    for detector in ["proved", *PEERS]:
        for own, arguments_of in (program, ["T0", detector]), (idle, [detector, "20"]):
            judge_run(tally, MPIS[0], 4, own, arguments_of)
    for fault in FAULTS:
        judge_fault(tally, program, [["T0", "proved", fault, str(seed)] for seed in range(1, SEEDS + 1)], 5)
    judge_fault(tally, cholesky, [[*QUICK.matrix, "2", FAULTS[1]]] * SEEDS, 10)
    mpi_graphs.run_programs(tally, folder, size)


def arguments(parser):
    parser.add_argument("--quick", action="store_true", help="a small tree and a small matrix, with 1 and 3 processes")


def run(options):
    missing = "" if options.quick else " and ".join(name for name in COMMANDS if not shutil.which(name))
    if reason := library.reason_not_built() or (missing and f"{missing}: not installed"):
        sys.exit(f"{reason}: make lib builds the library, tools/mpi-packages prints the packages")
    if all(options.tally.has(name, "the programs of capi/mpi") for name in COMMANDS):
        run_programs(options.tally, options.temporary, QUICK if options.quick else FULL)
