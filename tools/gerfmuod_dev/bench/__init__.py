"""Measures the built programs compared with others, compiled from bench/peers.

    sim, audit   `tp sim` on scripts and `tp audit` on traces, and a hand-written core in Rust
    run          `tp run` at nodes by workers, and a hand-written runtime in Rust, oneTBB's flow graph, OpenMP's tasks
    patterns     METG(50%) of `patterns`, the smallest task at which half of the machine is used, and of those runtimes
                 and threads with a barrier
    rod          `heat` on a rod of cells, and a plain loop, threads with a barrier, oneTBB and OpenMP
    body         the speed-up of four workers over one, by the length of a task's body
    product      `product` on two matrices, and three plain loops
    library      steps that a program in C reports to lib/libgerfmuod.a, and the hand-written core
    dag          task graphs with bodies in C: Cholesky, Jacobi, merge sort, small tasks; OpenMP, oneTBB, StarPU, OpenBLAS
    processes    over Open MPI: the detector for distributed programs, also call by call and simulated, and hand-written ones;
                 a factorization, StarPU and ScaLAPACK; short tasks, and MPI alone
    preloaded    programs with and without the checker of MPI programs and the tool for OpenMP programs

Without a name all of them. Before anything is timed the outputs of all programs are compared; the status is 1 if one differs. Then all run
once in each round, and it prints the medians of the rounds: all rows, and the tables of docs/PERFORMANCE.md; what begins is printed on
standard error. `front` names the three measurements of README's table. A series that has an impossible row fails, and --write stores none
that began on a machine with other work, or next to which others worked. `make` and `make lib` build what is measured; bench/README.md says
what the others need and how to read the numbers.

`compare OLD NEW` compares the programs of two folders, OLD/bin and NEW/bin, which run in turns: some cases of `run`, `rod` and `patterns`,
with no busy process and with four. It begins only on a machine at rest, and its status is 1 if others worked; --anyway permits both.
"""
import os
import sys

from .. import library, mpi_graphs, plots, repository
from ..repository import processors
from . import comparing, conditions, document, figures, rows, soundness, tables
from .cases import FRONT, MEASUREMENTS, PROGRAMS
from .measuring import TIMED, Bench
from .peers import CPP, Peers

# the measurements whose programs compare what they compute themselves
APART = ("dag", "processes", "preloaded")
# how often each program runs on each case; if it times its runs, in how many processes, and with how many runs in each
ROUNDS = {"quick": 3, "full": 15}
PROCESSES = {"quick": 2, "full": 5}
RUNS = {"quick": 3, "full": 5}


class ImpossibleRow(Exception):
    """A series has a row that cannot be: the series fails."""


def arguments(parser):
    parser.add_argument("measurements", nargs="*", metavar="NAME", help=f"{', '.join(['front', *MEASUREMENTS])}; or compare OLD NEW")
    form = parser.add_mutually_exclusive_group()
    for name, what in (("quick", ": the default"), ("full", ", instructions, load")):
        rounds = f"{ROUNDS[name]} rounds, or {PROCESSES[name]} of {RUNS[name]} timed runs"
        form.add_argument(f"--{name}", action="store_true", help=f"{'few' if name == 'quick' else 'all'} cases, {rounds}{what}")
    parser.add_argument("--rounds", type=int, metavar="N", help="how often each program runs on each case")
    parser.add_argument("--load", type=int, metavar="N", help="N busy processes at the same time, instead of none")
    parser.add_argument("--instructions", action="store_true", help="count instructions in the quick form too")
    parser.add_argument("--only", default="", metavar="WORD", help="only cases whose name has the word in it")
    parser.add_argument("--anyway", action="store_true", help="store rows of a machine that was not at rest, marked")
    stored = parser.add_mutually_exclusive_group()
    stored.add_argument("--write", action="store_true", help="store the rows in docs, and do what --draw does")
    stored.add_argument("--draw", action="store_true", help="measure nothing: draw plots and tables from the stored rows")
    stored.add_argument("--check", action="store_true", help="measure nothing: compare plots and tables with rows, and programs' outputs")


def measured(options, name, folder, peers):
    form, found = "full" if options.full else "quick", []
    # (the full form measures `run` without busy processes, and again with one for each processor)
    loads = [0, processors()] if options.full and name == "run" else [0]
    for load in loads if options.load is None else [options.load]:
        rounds = options.rounds or (PROCESSES if name in TIMED else ROUNDS)[form]
        bench = Bench(peers, folder, rounds, RUNS[form], load, options.full or options.instructions, form == "quick", options.only)
        for row in MEASUREMENTS[name](bench):
            found.append(row)
            if reasons := soundness.impossible(name, found):
                raise ImpossibleRow("; ".join(reasons))
    path, kind = f"{folder}/rows.csv", rows.kind_of(name)
    rows.write(path, found, kind)
    return rows.read(path, kind)


def measure_all(options, names, folder):
    peers, load_average = Peers(folder), conditions.load_average()
    if options.write and not options.anyway and (faults := conditions.faults(load_average)):
        sys.exit(f"nothing is measured: {faults}")
    form, stored, failed = "full" if options.full else "quick", [], []
    for name in names:
        start = conditions.now()
        try:
            found = measured(options, name, folder, peers)
        except ImpossibleRow as error:
            print(f"{name} FAILED: {error}", file=sys.stderr, flush=True)
            failed.append(name)
            continue
        if not found:
            print(f"{name}: no case has {options.only!r} in its name", file=sys.stderr)
            continue
        end = conditions.now()
        its_origin = conditions.origin_of(name, form, found, end[0] - start[0], load_average, conditions.others(start, end))
        parts = [f"## {name}", rows.text_of(found, rows.kind_of(name)), tables.TABLES[name](found), tables.of_origins([its_origin]), ""]
        print("\n\n".join(parts), flush=True)
        if not options.write:
            continue
        if faults := conditions.faults(load_average, its_origin.others):
            print(f"{name}: {'marked' if options.anyway else 'not stored'}: {faults}", file=sys.stderr, flush=True)
        if faults and not options.anyway:
            failed.append(name)
        else:
            rows.keep(name, found, its_origin._replace(marked=faults))
            stored.append(name)
    if stored:
        print("waits until the load average has fallen", file=sys.stderr, flush=True)
        seconds, known = conditions.seconds_to_rest(), rows.origins()
        rows.keep_origins({name: known[name]._replace(seconds_to_rest=seconds) for name in stored})
    return 1 if failed else 0


def compare_outputs(tally, folder):
    """Counts the measurements of whose quick cases all programs print the same. A peer that cannot be compiled fails, also of APART."""
    peers, reasons = Peers(folder), [*map(repository.reason_not_built, ("tp", "samples")), library.reason_not_built()]
    if any(reasons):
        return tally.fails(f"{next(filter(None, reasons))}: no outputs are compared")
    for name in (name for name in MEASUREMENTS if name not in APART):
        try:
            reason = [*MEASUREMENTS[name](Bench(peers, folder, 0, RUNS["quick"], 0, False, True, ""))]
        except SystemExit as error:
            reason = error
        tally.judge(not reason, reason)
    starpu = (*mpi_graphs.starpu(), f"-L{repository.TOP}/lib", "-lgerfmuod", "-pthread", "-lm")
    peers.program("starpu", ("mpicc", f"-I{repository.TOP}/capi/include"), "../../capi/bench/peers/starpu_cholesky.c", starpu)
    peers.program("grain_tbb", tuple(CPP), "../../capi/bench/peers/grain_tbb.cpp", ("-pthread", "-ltbb"))
    peers.over_library("processes")
    for source, needed in peers.left_out.items():
        tally.skips(f"bench/peers/{source}", needed) if needed else tally.fails(f"bench/peers/{source} is left out")
    return None


def fault_of(options):
    """Returns why these options do not go together; an empty text if they do."""
    is_comparison = options.measurements[:1] == ["compare"]
    unknown = [name for name in options.measurements if name not in ("front", *MEASUREMENTS) and not is_comparison]
    numbers = [number for number in (options.rounds, options.load) if number is not None]
    asked = [options.measurements, options.full, options.quick, options.instructions, options.only, numbers]
    faults = {
        "compare takes two folders, and of the options --rounds, --load, --only and --anyway": is_comparison
        and (len(options.measurements) != 3 or options.full or options.quick or options.instructions or options.write),
        f"no measurement: {' '.join(unknown)}": unknown,
        "--draw and --check measure nothing, and take no other option": (options.draw or options.check) and any(asked),
        "--write stores whole measurements: not with --only": options.write and options.only,
        "--rounds is 1 or more, --load 0 or more": options.rounds == 0 or min(numbers, default=0) < 0,
        "--anyway is for --write": options.anyway and not options.write and not is_comparison,
    }
    return next((fault for fault, holds in faults.items() if holds), "")


def run(options):
    if fault_of(options):
        options.parser.error(fault_of(options))
    if options.check:
        plots.check(options.tally, figures.PLOTS)
        document.check(options.tally)
        return compare_outputs(options.tally, options.temporary)
    if options.measurements[:1] == ["compare"]:
        peers, rounds = Peers(options.temporary), options.rounds or PROCESSES["full"]
        bench = Bench(peers, options.temporary, rounds, RUNS["full"], 0, True, False, options.only)
        folders = [os.path.join(options.folder_of_call, folder) for folder in options.measurements[1:]]
        return comparing.compare(bench, folders, comparing.LOADS if options.load is None else [options.load], options.anyway)
    status = 0
    if not options.draw:
        asked = {*(options.measurements or MEASUREMENTS), *(FRONT if "front" in options.measurements else [])}
        names = [name for name in MEASUREMENTS if name in asked]
        if missing := [path for path in dict.fromkeys(path for name in names for path in PROGRAMS[name]) if not os.path.isfile(path)]:
            sys.exit(f"missing: {' '.join(missing)}: `make` and `make lib` build them")
        status = measure_all(options, names, options.temporary)
    if options.draw or options.write:
        status = 1 if plots.write(figures.PLOTS) else status
        document.write()
    return status
