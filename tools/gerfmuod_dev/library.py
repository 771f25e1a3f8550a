"""Proves all that the library for other languages is built on, and builds it: lib/libgerfmuod.a and libgerfmuod.so.0.

The proved archive, lib/proved/libgerfmuod.a, is of Rattle alone. What is not proved is added to it whenever that changes: the
inline calls as symbols, and the team of threads: the parts in C of capi/src. Then the archive has all that it
links except the C library and POSIX threads. Next to it are the headers for C and C++, the module for Fortran, `gerfmuod.pc`
for pkg-config, and `SOURCES`, a digest of what was added. Prints a line for each crate as it ends.

With --since it takes the programs that `rt ci` has left in crates/*/out since that time, and proves the last crate of the library
over what it has left there. A library or a program passes if it is built from these sources.
"""
import fcntl
import hashlib
import os
import re
import shutil
import subprocess
import tempfile

from . import build, repository, running, shared_object
from .repository import text_of

CRATE = build.LIBRARIES[0]
PROVED = repository.BUILT[CRATE][1]
ARCHIVE = "lib/libgerfmuod.a"
SHARED = f"lib/{shared_object.SONAME}"
HEADERS = shared_object.HEADERS
PACKAGE = f"{shared_object.SOURCES}/gerfmuod.pc.in"
DIGEST = "lib/SOURCES"


def reason_not_built():
    """Returns why the library cannot be used, or an empty text. Only the proved archive has to be there: the rest is added to it."""
    reason = repository.reason_not_built(CRATE)
    try:
        return reason or add_all()
    except subprocess.CalledProcessError as error:
        return f"the parts in C cannot be added to {ARCHIVE}: {error}"


def add_all():
    """Adds to a copy of the proved archive what is not proved, unless that was done; one command at a time may do it."""
    with open(f"{PROVED}.lock", "w", encoding="utf-8") as lock, tempfile.TemporaryDirectory() as folder:
        fcntl.flock(lock, fcntl.LOCK_EX)
        # what the library is made of: the proved archive, the headers, and the parts in C and their compiler
        texts = map(text_of, [f"{PROVED}.sources", *HEADERS, *repository.files_in(shared_object.SOURCES)])
        made_of = hashlib.sha256("".join([*texts, f"{shared_object.COMPILE}{shared_object.LINK}"]).encode()).hexdigest()
        if os.path.exists(ARCHIVE) and os.path.exists(SHARED) and text_of(DIGEST, "") == made_of:
            return ""
        shutil.copy(PROVED, ARCHIVE)
        # (the toolchain's calls of malloc, realloc and free)
        subprocess.run(["ar", "x", f"{kit()}/c/liblibc_c.a"], cwd=folder, check=True)
        subprocess.run(["ar", "rs", ARCHIVE, *repository.files_in(folder)], check=True, capture_output=True)
        shared_object.seal(ARCHIVE)
        shared_object.link(ARCHIVE, SHARED)
        os.makedirs("lib/gerfmuod", exist_ok=True)
        for header in HEADERS:
            shutil.copy2(header, "lib" if header.endswith("/gerfmuod.h") else "lib/gerfmuod")
        values = {**dict.fromkeys(("PREFIX", "EXEC_PREFIX", "LIBDIR", "INCLUDEDIR"), "${pcfiledir}"), "VERSION": repository.version()}
        running.write("lib/gerfmuod.pc", re.sub(r"@(\w+)@", lambda found: values[found[1]], text_of(PACKAGE)))
        running.write(DIGEST, made_of)
    return ""


def kit():
    return os.path.dirname(subprocess.run(["rt", "doc"], capture_output=True, text=True, check=True).stdout.strip())


def compile_over(libraries):
    """Proves the crate of the library over those of the gate, by their names, and compiles it; returns whether that succeeded."""
    top, below = kit(), repository.crates(build.LIBRARIES)[CRATE].below
    command = [f"{top}/bin/rattle", "build", "--crate-name", CRATE, "--crate-type", "staticlib", "--links", f"{CRATE}=", "src/lib.rt"]
    command += ["--extern", f"std={top}/rlibs/std.rlib", "-L", f"dependency={top}/rlibs"]
    command += [word for name in below for word in ("--extern", f"{name}=../{name}/out/rlib/{name}.rlib")]
    command += [word for name in libraries for word in ("-L", f"dependency=../{name}/out/rlib")]
    command += ["--antt-project", f"{top}/rattle/logic/antt-project.json", "--logic-built", f"{top}/logic_built"]
    command += ["--jobs", str(repository.lanes(repository.MEMORY_OF_A_CHECK)), "--toolchain", f"{top}/toolchain", "--backend", "llvm"]
    os.makedirs(f"crates/{CRATE}/out", exist_ok=True)
    if subprocess.run([*command, "-o", f"out/lib{CRATE}.a"], cwd=f"crates/{CRATE}", check=False).returncode:
        return False
    repository.take(CRATE)
    return True


def is_since(path, since):
    return os.path.exists(path) and os.path.getmtime(path) >= since


def arguments(parser):
    parser.add_argument("--since", type=float, metavar="SECONDS", help="a time: take what the gate has built since then")


def run(options):
    below = [name for name in repository.crates(build.LIBRARIES) if name != CRATE]
    programs = [] if options.since is None else build.PROGRAMS
    for name in {*repository.BUILT} - {CRATE} if programs else ():
        if is_since(f"crates/{name}/out/{repository.BUILT[name][0]}", options.since):
            repository.take(name)
    if repository.reason_not_built(CRATE):
        has_all = options.since is not None and all(is_since(f"crates/{name}/out/rlib", options.since) for name in below)
        print(f"Proves {1 if has_all else len(below) + 1} crates, and builds {ARCHIVE} and {SHARED}.", flush=True)
        if not (compile_over(below) if has_all else build.prove_all(build.LIBRARIES)):
            print("NOT PROVED.")
    for name in [CRATE, *programs]:
        reason = reason_not_built() if name == CRATE else repository.reason_not_built(name)
        options.tally.judge(not reason, reason)
