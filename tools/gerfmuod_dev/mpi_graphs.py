"""Runs the programs over gerfmuod/mpi.h, mpi.hpp and mpi_pool.h, and others, with Open MPI and with MPICH, what is installed.

graph_fuzz.c compares random graphs, and pool_fuzz.c random tasks that make tasks, with a sequential program, and stop some by a body that
fails. Others compute something whose result is known: jacobi in C, C++ and Fortran, graph_patterns.c (as bench/peers do), trees,
factorizations, also by ScaLAPACK and StarPU. graph_bodies.cpp tests mpi.hpp, graph_failures.f90 the module for Fortran. graph_crash.c ends
a process in a body: mpirun has to end the others. Then each damage of mpi-damages.json has to be found. `tools/dev mpi` calls this.
"""
import collections
import itertools
import json
import os
import re
import shutil
import time

from . import running
from .c_programs import WARNINGS, judge, Run, output_of, start
from .repository import TOP, text_of
from .shared_object import FORTRAN_MODULES, INCLUDE, environment_options

FOLDER, SOURCE, POOL = f"{TOP}/capi/mpi", f"{INCLUDE}/gerfmuod/mpi.c", f"{INCLUDE}/gerfmuod/mpi_pool.c"
DAMAGES = f"{TOP}/tools/data/mpi-damages.json"
# (reasons: what mpirun prints if a process ends by a signal or by exit(3), of which MPICH says nothing)
Mpi = collections.namedtuple("Mpi", "name compiler fortran runner reasons", defaults=[None])
OPEN_MPI = "mpirun.openmpi --oversubscribe --mca mpi_yield_when_idle 1".split()
MPIS = [
    Mpi("Open MPI", "mpicc.openmpi", "mpifort.openmpi", OPEN_MPI, {"kill": "signal 9", "abort": "signal 6", "exit": "Exit code:    3"}),
    Mpi("MPICH", "mpicc.mpich", "mpifort.mpich", ["mpirun.mpich"], {"kill": "signal 9", "abort": "BAD TERMINATION", "exit": ""}),
]
ROOT = {"OMPI_ALLOW_RUN_AS_ROOT": "1", "OMPI_ALLOW_RUN_AS_ROOT_CONFIRM": "1", "OPENBLAS_NUM_THREADS": "1"}
ENVIRONMENT = {**os.environ, **ROOT}
# (without the C++ bindings of MPI-2, whose headers have warnings)
CPP = ["-std=c++17", *WARNINGS, "-DOMPI_SKIP_MPICXX", "-DMPICH_SKIP_MPICXX", "-O2", f"-I{INCLUDE}"]
JACOBI, PATTERN = "100 steps of 32000 cells, sum 1000.000000", "checksum 543689408: right"
IN_CPP = {"jacobi": JACOBI, "graph_bodies": "processes: as they should be"}
IN_FORTRAN = {"jacobi": JACOBI, "graph_failures": "the chain ended, was stopped and was refused"}
BLAS = ["-DHAVE_BLAS", "-lopenblas"] if os.path.exists("/usr/include/x86_64-linux-gnu/cblas-openblas.h") else []
SCALAPACK = "/usr/lib/x86_64-linux-gnu/libscalapack-openmpi.so"
# mpirun has ended by then if a process ended in a body; it takes less than 2 seconds
SECONDS_OF_CRASH, WELL = 30, "have the value"
# the number of graphs in which a damage is sought, at three processes. With some the program hangs, and is ended after these seconds
GRAPHS, SECONDS = "60", 5


def compiled(mpi, folder, name, sources=(SOURCE,), options=(), path=None):
    path = path or f"{folder}/{name}"
    # (MPICH declares MPI_STATUSES_IGNORE as an array)
    warnings = [*WARNINGS, "-Wno-unused-function", "-Wno-stringop-overflow"]
    output_of([mpi.compiler, "-std=c11", *warnings, "-O2", f"-I{INCLUDE}", *environment_options("CFLAGS"),
               f"{FOLDER}/{name}.c", *sources, "-o", path, f"-L{TOP}/lib", "-lgerfmuod", "-pthread", "-lm", *options])
    return path


def compiled_cpp(mpi, folder, name):
    """Compiles a program in C++ with each compiler that is installed, of which the last one's is left, and mpi.c, which is C."""
    part, path = f"{folder}/mpi.o", f"{folder}/{name}"
    output_of([mpi.compiler, "-std=c11", *WARNINGS, "-O2", f"-I{INCLUDE}", *environment_options("CFLAGS"), "-c", SOURCE, "-o", part])
    for compiler in filter(shutil.which, ("clang++", "g++")):
        output_of([mpi.compiler.replace("cc", "cxx"), *CPP, *environment_options("CXXFLAGS"), f"{FOLDER}/{name}.cpp", part, "-o", path,
                   f"-L{TOP}/lib", "-lgerfmuod", "-pthread"], env={**os.environ, "OMPI_CXX": compiler, "MPICH_CXX": compiler})
    return path


def compiled_fortran(mpi, folder, name):
    """Compiles a program in Fortran, with the modules, whose constants have to be those of the headers."""
    constants = re.findall(r"\b(gerfmuod_\w+) = (-?\d+)", "".join(map(text_of, FORTRAN_MODULES)))
    compared = "".join(f'_Static_assert({constant.upper()} == (uint32_t){value}, "");\n' for constant, value in constants)
    text, path = f'#include "{SOURCE}"\n#include <gerfmuod.h>\n{compared}', f"{folder}/{name}_in_fortran"
    source = running.write(f"{folder}/mpi.c", text)
    output_of([mpi.compiler, "-O2", f"-I{INCLUDE}", "-c", source, "-o", f"{path}.o"])
    output_of([mpi.fortran, "-std=f2018", "-Wall", "-Wextra", "-Werror", "-O2", "-fcheck=all", *environment_options("FFLAGS"),
               "-J", folder, *FORTRAN_MODULES, f"{FOLDER}/{name}.f90", f"{path}.o", "-o", path, f"-L{TOP}/lib", "-lgerfmuod", "-pthread"])
    return path


def with_rows(mpi, folder):
    """Compiles the factorization with graph_rows.c, which writes the times of a run to $GERFMUOD_ROWS."""
    wrapped = ["-Wl," + ",".join(f"--wrap=gerfmuod_mpi_{name}" for name in ("data", "task_on", "run"))]
    return compiled(mpi, folder, "graph_cholesky", (SOURCE, f"{FOLDER}/graph_rows.c"), [*wrapped, *BLAS], f"{folder}/with_rows")


def command_of(mpi, processes, program, arguments, seconds=running.SECONDS):
    return ["timeout", "-k", "5", str(seconds), *mpi.runner, "-n", str(processes), program, *arguments]


def judge_run(tally, mpi, processes, program, arguments, expected="", seconds=running.SECONDS):
    """Runs a program and prints what it prints; counts whether it succeeds, and prints a text."""
    environment = {**ENVIRONMENT, "STARPU_HOME": os.path.dirname(program), "GERFMUOD_ROWS": f"{program}.rows"}
    options = {"env": environment, "timeout": seconds + running.SECONDS}
    output = judge(tally, command_of(mpi, processes, program, arguments, seconds), Run([], 0, expected), **options)
    print(mpi.name, output.strip(), sep=": ", flush=True)


def starpu():
    """Returns the compiler's options for StarPU over Open MPI, only the first one if it is not installed."""
    return ["-DHAVE_STARPU", *running.run(["pkg-config", "--cflags", "--libs", "starpumpi-1.3"]).out.decode().split()]


def judge_damages(tally, mpi, folder):
    texts, fuzzes = {path: text_of(path) for path in (SOURCE, POOL)}, {SOURCE: ("graph_fuzz", []), POOL: ("pool_fuzz", [SOURCE])}
    for name, old, new, *arguments in json.loads(text_of(DAMAGES)):
        found = [path for path, text in texts.items() for _ in range(text.count(old))]
        tally.judge(len(found) == 1, f"{found} have the text of the damage: {name}")
        (fuzz, others), source = fuzzes[found[0]], running.write(f"{folder}/damaged.c", texts[found[0]].replace(old, new))
        command = command_of(mpi, 3, compiled(mpi, folder, fuzz, [source, *others]), ["1", GRAPHS, "2", *arguments], SECONDS)
        result = start(command, env=ENVIRONMENT, timeout=SECONDS + running.SECONDS)
        tally.judge(result.status, f"{mpi.name}: {found[0]} with a damage passed: {name}")


def judge_crashes(tally, mpi, program):
    """Counts whether mpirun ends by itself, fails, says why, and leaves no process, if one ends in a body whose value the others await."""
    for (way, reason), (processes, *rest) in itertools.product(mpi.reasons.items(), ((3, "1"), (4, "2", "return"), (4, "2", "pool"))):
        command, began = command_of(mpi, processes, program, [way, *rest], SECONDS_OF_CRASH), time.monotonic()
        result = start(command, env=ENVIRONMENT, timeout=2 * SECONDS_OF_CRASH)
        seconds, left = time.monotonic() - began, start(["pgrep", "-f", program])
        has_failed = result.status and reason.encode() in result.out and WELL.encode() not in result.out
        fault = f"{seconds:.1f} s, {result.description()}, left: {left.description()}: {running.short(result.out, 2000)}"
        tally.judge(has_failed and seconds < SECONDS_OF_CRASH and left.status == 1, f"{' '.join(command)}: {fault}")


def run_programs(tally, folder, size):
    """Runs each program with these numbers of processes, the fuzz over this number of seeds; the damages with one MPI."""
    found = [mpi for mpi in MPIS if tally.has(mpi.compiler, f"task graphs over {mpi.name}")]
    peers = [("../../bench/peers/pdpotrf", ["-lscalapack-openmpi"])] * bool(BLAS and os.path.exists(SCALAPACK))
    peers += [("../bench/peers/starpu_cholesky", starpu())] * (len(starpu()) > 1)
    if len(peers) < 2:
        tally.skips("factorizations by ScaLAPACK, StarPU or OpenBLAS", "libscalapack-openmpi-dev, libstarpu-dev or libopenblas-dev")
    for mpi in found:
        fuzz, jacobi, costs = (compiled(mpi, folder, name) for name in ("graph_fuzz", "mpi_jacobi", "graph_costs"))
        search, patterns = (compiled(mpi, folder, name) for name in ("uts_mpi", "graph_patterns"))
        crash, pool_fuzz, pools = (compiled(mpi, folder, name, (POOL, SOURCE)) for name in ("graph_crash", "pool_fuzz", "pool_search"))
        factoring = [with_rows(mpi, folder), *(compiled(mpi, folder, name, options=BLAS) for name in ("graph_cholesky", "mpi_cholesky"))]
        for name, options in peers * (mpi.name == "Open MPI"):
            factoring.append(compiled(mpi, folder, name, path=f"{folder}/{os.path.basename(name)}", options=[*options, *BLAS]))
        runs = [(program, ["1", size.seeds, *rest], "") for program in (fuzz, pool_fuzz) for rest in (["1"], ["2"], ["2", "fails"])]
        runs += [(jacobi, [], JACOBI), (crash, ["none", "2"], WELL), (crash, ["none", "2", "pool"], WELL), (search, ["T0"], "right")]
        runs += [(pools, [tree, "2"], "right") for tree in size.trees]
        runs += [(patterns, [way, *"spread 16 50 2 2 100".split()], PATTERN) for way in ("graph", "plain")]
        runs += [(compiled_cpp(mpi, folder, name), [], printed) for name, printed in IN_CPP.items()]
        if tally.has(mpi.fortran, f"task graphs in Fortran over {mpi.name}"):
            runs += [(compiled_fortran(mpi, folder, name), [], printed) for name, printed in IN_FORTRAN.items()]
        runs += [(program, [*size.matrix, "2"], "right") for program in factoring]
        for processes in size.counts:
            # (with 16 processes the threads of StarPU, which never sleep, take minutes)
            for run in (run for run in runs if processes <= 4 or "starpu" not in run[0]):
                judge_run(tally, mpi, processes, *run)
        judge_run(tally, mpi, 2, costs, ["100"], "a message of 8 bytes")
        judge_crashes(tally, mpi, crash)
    for mpi in found[:1]:
        judge_damages(tally, mpi, folder)
