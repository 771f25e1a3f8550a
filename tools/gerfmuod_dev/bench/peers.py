"""Compiles the programs of bench/peers, with which this repository's are compared."""
import functools
import os
import re
import sys

from .. import running
from ..repository import TOP

SOURCES = f"{TOP}/bench/peers"
RUST = ["rustc", "--edition", "2024", "-C", "opt-level=3"]
CPP = ["g++", "-std=c++17", "-O2"]
# the package that a program needs besides its compiler
NEEDED = {
    "-ltbb": "oneTBB (Debian's libtbb-dev)", "-fopenmp": "OpenMP (GCC's libgomp)", "-lopenblas": "OpenBLAS (libopenblas-dev)",
    "-DHAVE_STARPU": "StarPU (libstarpu-dev)", "-lscalapack-openmpi": "ScaLAPACK (libscalapack-openmpi-dev)", "-lcmocka": "libcmocka-dev",
}


class Peers:
    """The compiled programs. Each is compiled at its first use, and is None if that fails, which is printed once."""

    def __init__(self, folder, sources=SOURCES):
        self.folder, self.sources, self.left_out = folder, sources, {}

    @functools.lru_cache(maxsize=None)
    def program(self, name, compiler, source, libraries=()):
        path = f"{self.folder}/{name}"
        result = running.run([*compiler, "-o", path, f"{self.sources}/{source}", *libraries])
        if not result.status:
            return path
        needs = " or ".join(NEEDED[option] for option in (*compiler, *libraries) if option in NEEDED)
        print(f"{source} is left out{', and needs ' + needs if needs else ''}: {running.short(result.err)}", file=sys.stderr)
        is_absent = re.search(rb"cannot find -l|fatal error: .*: No such file|No such file or directory: '", result.err)
        self.left_out[source] = needs or compiler[0] if is_absent else ""
        return None

    def rust(self, name, source, *more):
        return self.program(name, (*RUST, *more), source)

    def flow_graph(self, name):
        return self.program(name, tuple(CPP), f"{name}.cpp", ("-ltbb",))

    def depend(self, name):
        return self.program(name, (*CPP, "-fopenmp"), f"{name}.cpp")

    def over_library(self, name, source="", *libraries):
        compiler = ("gcc", "-std=c11", "-O2", f"-I{TOP}/capi/include")
        return self.program(name, compiler, source or f"{name}.c", (f"-L{TOP}/lib", "-lgerfmuod", "-pthread", *libraries))

    @property
    def measure(self):
        path = self.program("measure", (os.environ.get("CC") or "cc", "-O2"), "measure.c")
        return path or sys.exit("nothing can be measured without bench/peers/measure.c, which needs a C compiler")
