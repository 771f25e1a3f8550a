"""Runs built programs, each with a time limit, compares their results, and counts the cases that pass."""
import os
import re
import shutil
import subprocess
import sys
from concurrent.futures import ThreadPoolExecutor
from typing import NamedTuple

from . import repository
from .repository import TOP, processors

# (programs print exact lines alone, without reasons, unless a test is about these)
os.environ["GERFMUOD_QUIET"] = "1"
# the statuses that a shell gives a program that cannot be started, and `timeout` one that does not end
NOT_STARTED, NOT_ENDED = 126, 124
# the time limit of a run, under a sanitizer and on a loaded machine too
SECONDS = 300
CACHEGRIND = ["valgrind", "--tool=cachegrind", "--cache-sim=no", "--cachegrind-out-file=/dev/null"]
# the package of Debian that has a command, if it has another name
PACKAGES = {
    "c++": "g++", "cc": "gcc", "clang++": "clang", "dot": "graphviz", "mpicc": "libopenmpi-dev", "mpirun": "openmpi-bin",
    "mpicc.mpich": "libmpich-dev", "mpicc.openmpi": "libopenmpi-dev", "mpifort.mpich": "mpich", "mpifort.openmpi": "openmpi-bin",
    "pytest": "python3-pytest",
}


class Result(NamedTuple):
    """The exit status of a run as a shell has it (128 and the number for a signal), its output, and its standard error."""

    status: int
    out: bytes
    err: bytes

    def description(self, most=200):
        return f"status {self.status}, {len(self.out)} bytes of output, standard error {short(self.err, most)}"


class Tally:
    """Counts the cases that passed, failed and were skipped, and prints each that fails or is skipped at once."""

    def __init__(self):
        self.passed = self.failed = self.skipped = 0
        self.seconds = SECONDS

    def fails(self, reason, count=1):
        self.failed += count
        print(f"FAILED: {reason}", flush=True)

    def judge(self, is_well, reason):
        if is_well:
            self.passed += 1
        else:
            self.fails(reason)

    def skips(self, what, package):
        """Counts a case that is not tried, and prints what would have to be installed for it."""
        self.skipped += 1
        print(f"SKIPPED for lack of {package}: {what}", flush=True)

    def has(self, command, what):
        """Whether a command is installed. If it is not, counts what is not tried."""
        if not shutil.which(command):
            self.skips(what, PACKAGES.get(command, command))
        return bool(shutil.which(command))

    def end(self):
        """Prints the last line and returns the exit status."""
        print(f"{self.passed} passed, {self.failed} failed, {self.skipped} skipped")
        return 1 if self.failed else 0


def short(text, most=200):
    return text[:most].decode(errors="replace").replace("\n", ";")


def program_argument(parser, name="tp"):
    description = f"the built program {name} (bin/{name} by default)"
    parser.add_argument(name, nargs="?", metavar=name.upper(), type=os.path.abspath, default=f"{TOP}/bin/{name}", help=description)


def require(*programs):
    """Exits with status 1 if one of the programs is missing, or is one of bin/ that was built from other sources."""
    own = {f"{TOP}/{path}": name for name, (_, path) in repository.BUILT.items()}
    for program in map(os.path.abspath, programs):
        reason = repository.reason_not_built(own[program]) if program in own else ""
        if reason or not (os.path.isfile(program) and os.access(program, os.X_OK)):
            sys.exit(f"{reason or f'{program} is not a program'}: `make` builds the repository's own")


def run(command, stdin=os.devnull, **options):
    """Runs a command; its input is the file of that name, or the bytes themselves. After SECONDS it is ended."""
    is_text = isinstance(stdin, bytes)
    with open(os.devnull if is_text else stdin, "rb") as file:
        streams = {"input": stdin} if is_text else {"stdin": file}
        streams.update(stdout=subprocess.PIPE, stderr=subprocess.PIPE, timeout=SECONDS)
        try:
            process = subprocess.run(command, **{**streams, **options})
        except OSError as error:
            if command[0] == "rt":
                raise
            return Result(NOT_STARTED, b"", f"{error}\n".encode())
        except subprocess.TimeoutExpired as error:
            reason = f"it did not end within {error.timeout:.0f} seconds\n".encode()
            return Result(NOT_ENDED, error.stdout or b"", reason + (error.stderr or b""))
    return Result(process.returncode if process.returncode >= 0 else 128 - process.returncode, process.stdout or b"", process.stderr or b"")


def instructions(command, stdin=os.devnull, **options):
    """Returns the instructions of a command, counted by cachegrind: the load of the machine does not change them. None without valgrind."""
    report = run([*CACHEGRIND, *command], stdin, timeout=None, **options).err
    found = re.search(rb"I +refs: +([0-9,]+)", report)
    return int(found[1].replace(b",", b"")) if found else None


def in_parallel(items, action):
    with ThreadPoolExecutor(processors()) as pool:
        yield from pool.map(action, items)


def preload_library(tally, name, folder, what):
    """Compiles tools/c/NAME.c to a library for LD_PRELOAD; returns its path, or None if what needs it cannot be tried, which is counted."""
    path = f"{folder}/{name}.so"
    if not tally.has("cc", what):
        return None
    result = run(["cc", "-O1", "-shared", "-fPIC", "-o", path, f"{TOP}/tools/c/{name}.c"])
    tally.judge(not result.status, f"tools/c/{name}.c: {short(result.err, 2000)}")
    return None if result.status else path


def write(path, text):
    """Writes a text, or lines, to a file and returns its path."""
    if not isinstance(text, (bytes, str)):
        text = "".join(f"{line}\n" for line in text)
    with open(path, "wb") as file:
        file.write(text if isinstance(text, bytes) else text.encode())
    return path
