"""Compiles the programs of capi/ and runs them: tools/data/capi.json has them in the order of their runs, in two parts.

A row has a program, sources to compile with it, further options of the compiler, its runs, and its runs under valgrind and with the
sanitizers of SANITIZERS; "full" has those of the long form. A run is its arguments, if it succeeds, or a list: the expected status (-1: any
but 0), a text that the output contains, and the arguments of one or more runs. Each case of a test over cmocka counts. CC, CXX, FC, CFLAGS,
CXXFLAGS, FFLAGS and LDFLAGS are those of the environment. After a run that did not end, the time limit is shorter.
"""
import functools
import itertools
import json
import os
import re
import subprocess
import tempfile
from concurrent.futures import ThreadPoolExecutor
from typing import NamedTuple

from . import running
from .repository import TOP, text_of
from .running import NOT_ENDED, short
from .shared_object import FORTRAN_MODULES, INCLUDE, TEAM, environment_options, tool

WARNINGS = ["-Wall", "-Wextra", "-Wpedantic", "-Wcast-qual", "-Wredundant-decls", "-Werror"]
C = [*tool("CC", "gcc", "cc", "clang"), "-std=c11", *WARNINGS, "-O2", "-g", f"-I{INCLUDE}", *environment_options("CFLAGS")]
CPP = [*tool("CXX", "g++", "c++", "clang++"), "-std=c++17", *WARNINGS, "-O2", "-g", f"-I{INCLUDE}", *environment_options("CXXFLAGS")]
FORTRAN = [*tool("FC", "gfortran"), "-std=f2018", "-Wall", "-Wextra", "-Wno-unused-dummy-argument", "-Werror", "-O2", "-fopenmp"]
FORTRAN += [*environment_options("FFLAGS"), FORTRAN_MODULES[0]]
COMPILE = {".c": C, ".cpp": CPP, ".f90": FORTRAN, ".rs": ["rustc", "--edition", "2024", "-O"]}
VALGRIND = ["valgrind", "-q", "--error-exitcode=99", "--leak-check=full", "--errors-for-leak-kinds=all"]
SANITIZERS = {"address": ["-fsanitize=address,undefined", "-fno-sanitize-recover=all"], "thread": ["-fsanitize=thread"]}
KINDS = ("runs", "valgrind", *SANITIZERS)
# the packages of libraries that a program may need
PACKAGES = {"-lcmocka": "libcmocka-dev", "-lopenblas": "libopenblas-dev"}
# the compilers that check all sources, with the standards of headers and of programs
COMPILERS = {"gcc": ["c99", "gnu17"], "clang": ["c99", "c11"], "g++": ["c++98", "c++11", "c++17"], "clang++": ["c++98", "c++11", "c++17"]}
# instead of an expected exit status: any but 0
FAILURE = -1
SECONDS_AFTER_A_HANG = 15
# a case of cmocka, and what it printed if it failed
CASE = re.compile(r"^(not )?ok \d+ - (\w+)((?:\n# .*)*)", re.M)


class Run(NamedTuple):
    """The arguments of a run, its expected exit status or FAILURE, and a text that its output contains."""

    arguments: list
    status: int = 0
    output: str = ""


class Program(NamedTuple):
    """A source below capi/, options of the compiler, files that are linked with it, and its runs: "runs", "valgrind" or a sanitizer."""

    source: str
    options: tuple = ()
    files: tuple = ()
    runs: dict = {}


def programs(part, is_full=False):
    """Returns the programs of a part of the table, or those with a long form in it; task graphs have the team's source, to check it."""
    rows = json.loads(text_of(f"{TOP}/tools/data/capi.json"))[part]

    def runs_of(row):
        status, output, *lines = row if isinstance(row, list) else (0, "", row)
        return [Run(line.split(), status, output) for line in lines]

    return [
        Program(
            row["program"], tuple(row.get("options", ())),
            tuple(row.get("sources", [TEAM] if part == "dag" and row["program"].endswith(".c") else ())),
            {kind: sum(map(runs_of, runs), []) for kind, runs in (row["full"] if is_full else row).items() if kind in KINDS},
        )
        for row in rows if not is_full or "full" in row
    ]


def start(command, **options):
    return running.run(command, stderr=subprocess.STDOUT, **options)


def succeeds(command):
    return start(command).status == 0


def output_of(command, **options):
    result = start(command, **options)
    if result.status:
        raise SystemExit(f"{' '.join(command)}: status {result.status}: {short(result.out, 2000)}")
    return result.out.decode(errors="replace")


def judge(tally, command, expected, **options):
    """Runs a command; counts whether status and output are as expected, and the cases of cmocka that it reports. Returns the output."""
    given = {"CMOCKA_MESSAGE_OUTPUT": "TAP", "OPENBLAS_NUM_THREADS": "1", **os.environ}
    result = start(command, **{"timeout": tally.seconds, "env": given, **options})
    if result.status == NOT_ENDED:
        tally.seconds = SECONDS_AFTER_A_HANG
    output, is_failure = result.out.decode(errors="replace"), expected.status == FAILURE
    for fails, name, about in CASE.findall(output) if expected.status == 0 else ():
        tally.judge(not fails, f"{' '.join(command)}: case {name}: {about[:2000].strip()}")
    has_status = result.status not in (0, NOT_ENDED) if is_failure else result.status == expected.status
    wanted = f"status {result.status}, expected {'any but 0' if is_failure else expected.status}, with {expected.output!r}"
    tally.judge(has_status and expected.output in output, f"{' '.join(command)}: {wanted}: {short(result.out + result.err, 2000)}")
    return output


class Build:
    """Compiles programs in a folder, and links them with libgerfmuod.a of another one."""

    def __init__(self, library_folder, folder):
        self.library, self.folder = library_folder, folder

    def command(self, program, path, *options):
        source, ending = os.path.join("capi", program.source), os.path.splitext(program.source)[1]
        modules = ["-J", tempfile.mkdtemp(dir=self.folder)] if ending == ".f90" else []
        command = [*COMPILE[ending], *options, *modules, source, *program.files, "-o", path]
        if ending == ".rs":
            return [*command, "-L", f"native={self.library}", "-l", "static=gerfmuod"]
        libraries = [f"-L{self.library}", "-lgerfmuod", "-pthread", "-lm"]
        return [*command, *program.options, *libraries, *environment_options("LDFLAGS")]

    def compiled(self, tally, program, *options):
        path = f"{self.folder}/{program.source.replace('/', '_').replace('.', '_')}{len(program.options)}{''.join(options)[:12]}"
        command = self.command(program, path, *options)
        result = start(command)
        tally.judge(not result.status, f"{' '.join(command)}: status {result.status}: {short(result.out + result.err, 2000)}")
        return None if result.status else path

    @functools.lru_cache(maxsize=None)
    def can_link(self, *options):
        folder = tempfile.mkdtemp(dir=self.folder)
        source, path = running.write(f"{folder}/empty.c", "int main(void) { return 0; }\n"), f"{folder}/empty"
        return succeeds([*C, *options, source, "-o", path]) and succeeds([path])


def run_kind(tally, build, program, kind):
    """Does the runs of a program without a sanitizer and those under valgrind, or those with a sanitizer; prints how many there were."""
    options, before = SANITIZERS.get(kind, ()), tally.failed
    own, small = program.runs.get(kind, []), program.runs.get("valgrind", []) if kind == "runs" else []
    if options and own and not build.can_link(*options):
        tally.skips(program.source, f"{C[0]} with {options[0]}")
        return
    if not (path := build.compiled(tally, program, *options) if own or small else None):
        return
    for run in own:
        judge(tally, [path, *run.arguments], run)
    checked = [run for run in small if tally.has("valgrind", f"{program.source} under it")]
    for run in checked:
        judge(tally, [*VALGRIND, path, *run.arguments], run)
    more = f", {len(checked)} under valgrind" if checked else ""
    count = f"{len(own)} run{'s' * (len(own) != 1)}{more}{', FAILED' * (tally.failed > before)}"
    print(f"capi/{program.source}{''.join(f' {option}' for option in options[:1])}: {count}", flush=True)


def run_programs(tally, build, own):
    """Compiles those of the programs whose libraries are here, and does their runs; skips the others, once for each library."""
    for option, package in PACKAGES.items():
        if lacking := [program for program in own if option in program.options and not build.can_link(option)]:
            tally.skips(f"{len(lacking)} programs, such as {lacking[0].source}", package)
        own = [program for program in own if program not in lacking]
    own = [program for program in own if tally.has(COMPILE[os.path.splitext(program.source)[1]][0], program.source)]
    with ThreadPoolExecutor(2) as lanes:  # (most programs have a few threads, and the parts of `make test` run side by side)
        list(lanes.map(lambda each: run_kind(tally, build, *each), itertools.product(own, ("runs", *SANITIZERS))))


def check_sources(tally, headers, sources):
    """Counts whether each compiler accepts each header, also with ThreadSanitizer, and each source, without a warning."""
    for compiler, standards in COMPILERS.items():
        language = standards[0].rstrip("0123456789")
        for standard in standards if tally.has(compiler, "the check of the sources by it") else ():
            own = [path for path in headers if path.endswith(".h") or standard == "c++17"]
            checked = [["-include", path, *options, "/dev/null"] for path in own for options in ([], SANITIZERS["thread"])]
            if standard not in ("c++98", "c++11"):
                checked += [[path] for path in sources if path.endswith(".c" if language == "c" else ".cpp")]
            for arguments in checked:
                command = [compiler, "-x", language, f"-std={standard}", *WARNINGS, f"-I{INCLUDE}", "-fsyntax-only", *arguments]
                result = start(command)
                tally.judge(not result.status, f"{' '.join(command)}: {short(result.out, 2000)}")
