"""Builds the checker of MPI programs, a library for LD_PRELOAD, and runs it under wrong and right programs.

capi/preload/mpi has the library, and in programs/ the programs. Both are compiled for Open MPI and MPICH, if installed. A wrong program
has to be reported with the call, the rank or tag, and the place of its mistake, a right one without a verdict; the file in JSON has to
agree. The calls of mpi.h are compared with those that the library defines. --build FOLDER only builds the library, for `mpicc` or $MPICC.
"""
import glob
import json
import os
import re
import shutil
import subprocess
import tempfile
from concurrent.futures import ThreadPoolExecutor

from . import library, mpi_graphs, repository, running
from .c_programs import output_of
from .mpi_graphs import ROOT
from .shared_object import environment_options

FOLDER, NAME = "capi/preload/mpi", "libgerfmuod_mpi_check.so"
OPTIONS = "-std=gnu11 -O2 -Wall -Wextra -Werror -Wno-stringop-overflow -Icapi/include -Icapi".split() + environment_options("CFLAGS")
LINK = f"-shared -fPIC -Llib -Wl,-Bstatic -lgerfmuod -Wl,-Bdynamic -ldl -Wl,-z,defs,--version-script={FOLDER}/mpi_check.map".split()
# (a rank that yields while it polls loses a time slice each time on a busy machine)
MPIS = [mpi._replace(runner=" ".join(mpi.runner).replace("idle 1", "idle 0").split()) for mpi in mpi_graphs.MPIS]
FORTRAN_MODES = "right\t2\t\nwrong\t2\t\t: 0 +MPI_Recv +message from 1, tag 8, MPI_COMM_WORLD +\\S+ in \\w+\t4 bytes from rank 1, tag 7"
VERDICT = re.compile(r"DEADLOCK|UNSAFE|LOST|MISMATCH|no verdict|bug of this library|without MPI_Finalize")


def build(compiler, path):
    output_of([compiler, *OPTIONS, *sorted(glob.glob(f"{FOLDER}/*.c")), *LINK, *environment_options("LDFLAGS"), "-o", path])


def compiled(mpi, folder, name):
    output_of([mpi.compiler, *OPTIONS, "-O1", "-g", f"{FOLDER}/programs/{name}.c", "-o", f"{folder}/{name}"])
    return f"{folder}/{name}"


def programs(mpi, folder, is_full):
    """Compiles the programs for an MPI; yields the path of each, and the list of its modes. The long form also has programs of others."""
    compiled(mpi, folder, "cost")
    for path in (compiled(mpi, folder, name) for name in ("right", "wrong")):
        yield path, output_of([path, "modes"])
    for name in ("fortran", "fortran_2008") if shutil.which(mpi.fortran) else ():
        output_of([mpi.fortran, "-g", "-w", f"{FOLDER}/programs/{name}.f90", "-J", folder, "-o", f"{folder}/{name}"])
        yield f"{folder}/{name}", FORTRAN_MODES
    yield f"{FOLDER}/programs/others.sh", output_of([f"{FOLDER}/programs/others.sh", "modes", mpi.compiler.split(".")[1]]) * is_full


def printed_by(mpi, count, program, **variables):
    """Runs a program with this number of ranks; returns what it prints, or that it does not end."""
    given = ["env", *(f"{name}={value}" for name, value in variables.items() if value)]
    command = ["timeout", "-k", "5", "280", *mpi.runner, "-n", str(count), *given, *program]
    result = running.run(command, stderr=subprocess.STDOUT, env={**os.environ, **ROOT})
    return result.out.decode(errors="replace") + ("did not end" if result.status in (124, 137) else "")


def judge(tally, mpi, folder, path, mode, count, times):
    """Runs a mode of a program; counts whether what it prints, and writes as JSON, is what its row says."""
    name, _, options, *patterns = mode.split("\t")
    with tempfile.NamedTemporaryFile(dir=folder) as report:
        given = {"LD_PRELOAD": f"{folder}/{NAME}", "GERFMUOD_MPI": f"json={report.name},{options}"}
        printed = printed_by(mpi, count, [path, name, str(times)], **given)
        verdict = json.loads(repository.text_of(report.name) or '{"verdict": "none"}')["verdict"]
    absent = [pattern for pattern in patterns if not re.search(pattern.replace("LAST", str(count - 1)), printed)]
    is_well = f"done {times}\n" in printed and not VERDICT.search(printed) if not patterns else not absent
    about = f"{mpi.name}, {count} ranks: {os.path.basename(path)} {name}: {verdict}; not printed: {absent}: "
    tally.judge(is_well and (verdict == "ended") != bool(patterns), about + running.short(printed.encode(), 2000))


def judge_names(tally, mpi, path):
    header = [mpi.compiler, "-E", "-include", "mpi.h", "-x", "c", "/dev/null"]
    calls = re.findall(r"\b(MPI_[A-Z]\w+) *\(([^;{}]*?)\)[^;(]*;", output_of(header))
    declared = {name for name, types in calls if re.search(r"MPI_(Comm|Request|Message)\b", types)}
    absent = declared - set(re.findall(r" T (MPI_\w+)", output_of(["nm", "-D", path])))
    unnamed = sorted(name for name in absent if not re.fullmatch(repository.text_of("tools/data/mpi-undefined"), name, re.X))
    tally.judge(declared and not unnamed, f"{mpi.name}: not defined: {' '.join(unnamed)}")


def check(tally, mpi, folder, options):
    build(mpi.compiler, f"{folder}/{NAME}")
    judge_names(tally, mpi, f"{folder}/{NAME}")
    modes = [(path, mode) for path, modes in programs(mpi, folder, options.full) for mode in modes.splitlines()]
    for count in options.ranks:
        runs = []
        for path, mode in modes:
            name, least, how, *patterns = mode.split("\t")
            jobs, times = ((20, 1) if patterns else (5, 20)) if options.full else (1, 1)
            if how.startswith("lacks "):
                tally.skips(f"{name} over {mpi.name}", how[6:])
            elif count >= int(least) and name in (options.only or [name]):
                runs += [(job, path, mode, count, times) for job in range(jobs)]
        with ThreadPoolExecutor(max(6, 8 * repository.processors() // count)) as pool:
            list(pool.map(lambda run: judge(tally, mpi, folder, *run[1:]), sorted(runs)))


def arguments(parser):
    parser.add_argument("--full", action="store_true", help="20 jobs of each wrong program, 5 of 20 runs of each right one, and others")
    parser.add_argument("--ranks", type=int, nargs="+", default=[4], help="the numbers of ranks (4)")
    parser.add_argument("--only", metavar="MODE", nargs="+", help="only the programs with these modes")
    parser.add_argument("--build", metavar="FOLDER", help="only build the library, in this folder")


def run(options):
    if reason := library.reason_not_built():
        raise SystemExit(f"{reason}: make lib builds the library")
    if options.build:
        build(os.environ.get("MPICC", "mpicc"), f"{options.build}/{NAME}")
        return 0
    for mpi in MPIS:
        if all(options.tally.has(command, f"the programs of {mpi.name}") for command in (mpi.compiler, mpi.runner[0])):
            check(options.tally, mpi, tempfile.mkdtemp(dir=options.temporary), options)
    return None
