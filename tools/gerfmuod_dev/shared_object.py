"""Adds the parts in C to the library for other languages, and links it as a shared object: libgerfmuod.so.0.

The parts are in capi/src: gerfmuod_calls.c, the symbols of the calls that are inline for C, and gerfmuod_team.c, gerfmuod_parts.c and
gerfmuod_workers.c, which are over POSIX threads. No proof covers them. The archive and the shared object define only names gerfmuod_* for
others; the shared object has a soname and needs only the C library. CC, CFLAGS and LDFLAGS are those of the environment.
"""
import os
import re
import shlex
import shutil
import subprocess
import tempfile

from .repository import TOP, files_in, text_of

INCLUDE, SOURCES = f"{TOP}/capi/include", f"{TOP}/capi/src"
FORTRAN_MODULES = [f"{TOP}/capi/fortran/{name}.f90" for name in ("gerfmuod", "gerfmuod_mpi")]
# what is installed for compilers
HEADERS = [*files_in(INCLUDE), *FORTRAN_MODULES]
TEAM = f"{SOURCES}/gerfmuod_team.c"
# each part in C, and a symbol of it
PARTS = {f"{SOURCES}/gerfmuod_calls.c": "gerfmuod_core_insert", TEAM: "gerfmuod_team_open"}
PARTS.update({f"{SOURCES}/gerfmuod_{name}.c": f"gerfmuod_{name}_open" for name in ("parts", "workers")})
# what an archive defines for programs that are linked with it
PUBLIC = "gerfmuod_*"
SONAME = "libgerfmuod.so.0"


def tool(variable, *names):
    """Returns the command in a variable of the environment, as arguments, or else the first of these that is installed."""
    return shlex.split(os.environ.get(variable, "")) or [next(filter(shutil.which, names), names[0])]


def environment_options(variable):
    return shlex.split(os.environ.get(variable, ""))


CC = tool("CC", "cc", "gcc", "clang")
COMPILE = [*CC, "-std=c11", "-Wall", "-Wextra", "-pedantic", "-Werror", "-O2", "-g", f"-ffile-prefix-map={TOP}=.", "-fPIC", "-pthread"]
COMPILE += [f"-I{INCLUDE}", *environment_options("CFLAGS")]
LINK = [*CC, "-shared", "-pthread", f"-Wl,-soname,{SONAME}", f"-Wl,--version-script={SOURCES}/gerfmuod.map", "-Wl,-z,defs"]
LINK += environment_options("LDFLAGS")


def compile_part(part, folder):
    path = f"{folder}/{os.path.basename(part)[: -len('.c')]}.o"
    subprocess.run([*COMPILE, "-c", part, "-o", path], check=True)
    return path


def seal(archive):
    """Joins the object files of the archive to one whose other names no program sees, as the allocator's, and adds the parts in C."""
    with tempfile.TemporaryDirectory() as folder:
        joined, archive = f"{folder}/gerfmuod.o", os.path.abspath(archive)
        subprocess.run(["ar", "x", archive], cwd=folder, check=True)
        subprocess.run([*CC, "-r", "-nostdlib", *files_in(folder), "-o", f"{folder}/joined"], check=True)
        subprocess.run(["objcopy", "--wildcard", f"--keep-global-symbol={PUBLIC}", f"{folder}/joined", joined], check=True)
        os.remove(archive)
        subprocess.run(["ar", "rcs", archive, joined, *(compile_part(part, folder) for part in PARTS)], check=True)


def declared():
    """Returns the names of the functions that the headers for C declare."""
    headers = (text_of(path) for path in HEADERS if path.endswith(".h") and not path.endswith(("/tsan.h", "/mpi.h", "/mpi_pool.h")))
    return {name for text in headers for name in re.findall(r"\b(gerfmuod_\w+)\(", re.sub(r"/\*.*?\*/", "", text, flags=re.S))}


def symbols(path, *options):
    output = subprocess.run(["nm", "--defined-only", "-g", *options, path], capture_output=True, text=True, check=True).stdout
    return set(re.findall(r"^[0-9a-f]+ [B-Z] (\w+)", output, re.M))


def link(archive, path):
    """Links the whole archive as a shared object, with the parts in C that the archive does not have."""
    with tempfile.TemporaryDirectory() as folder:
        there = symbols(archive)
        parts = [compile_part(part, folder) for part, symbol in PARTS.items() if symbol not in there]
        subprocess.run([*LINK, "-Wl,--whole-archive", archive, "-Wl,--no-whole-archive", *parts, "-o", path], check=True)
