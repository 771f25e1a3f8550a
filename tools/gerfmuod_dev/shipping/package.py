"""Installs into temporary folders and checks what is there: `make test`. It fails if a program or the library is not of these sources.

Compares what the pages of the manual have and the completion offers with what they are generated from; the
installed files with the list that `make uninstall` reads, their modes with the usual ones, and the links of the documents with them. Runs
programs in C, C++, Fortran, Rust and Python over nothing but the installed files, by pkg-config and by CMake, shared and static. After
`make uninstall` nothing is left. Then tools/release-test packs a release and tries it here. What is not installed is skipped, and counted.
"""
import compileall
import glob
import json
import os
import re
import sys
import tempfile
from dataclasses import dataclass

from .. import docs, library, repository, running, shared_object
from ..limits import terminal
from ..running import short, write

SONAME = shared_object.SONAME
# variables of make: a folder of its own, and the folders of Debian, with headers in a folder of their own
USUAL = {"PREFIX": "/usr/gerfmuod", "LIBDIR": "/usr/gerfmuod/lib", "INCLUDEDIR": "/usr/gerfmuod/include"}
OTHER = {"PREFIX": "/usr", "LIBDIR": "/usr/lib/x86_64-linux-gnu", "INCLUDEDIR": "/usr/include/gerfmuod", "MANDIR": "/srv/man"}
LIST, DOCUMENTS = ("PREFIX", "/share/gerfmuod/installed"), ("PREFIX", "/share/doc/gerfmuod")
# lines that a tab completes, and what runs then; lines of sh with the program or the command that each needs and what it prints
TABLES = repository.text_of(f"{repository.TOP}/tools/data/package/tables.json")
# the shells with an option and a first command, and a program that only completion runs: others are written to a file with their input
SHELLS = {"bash": ("--norc", ":"), "zsh": ("-f", "autoload -U compinit; compinit -uD"), "fish": ("--no-config", ":")}
COMPLETED = '#!/bin/sh\ncase "$*" in *--help | *--list) exec {} "$@" ;; esac\n{{ echo "$*"; [ -t 0 ] || cat; }} >> {}\n'
# what a page of the manual has otherwise
SIGN = re.compile(r"/?\*+/?|(Usage|Options|Examples):|gerfmuod[\w/]*\.h:")
ALLOWED = ("PKG_CONFIG_ALLOW_SYSTEM_CFLAGS", "PKG_CONFIG_ALLOW_SYSTEM_LIBS", "PYTHONDONTWRITEBYTECODE")


def check(tally, result, what, expected=""):
    """Counts and returns whether a command succeeded, and printed what is expected."""
    is_well = result.status == 0 and expected in result.out.decode()
    tally.judge(is_well, f"{what}: status {result.status}, not {expected!r}: {short(result.out + result.err, 3000)}")
    return is_well


@dataclass
class Tree:
    """An installation in a temporary folder: its DESTDIR, the variables of make, and where what is installed was built."""

    destination: str
    variables: dict
    built: str

    def path(self, name, *below):
        """Returns where a folder of the installation is now, or what is below it."""
        return "".join([self.destination, self.variables[name], *below])

    def make(self, target):
        """Runs make with a narrow umask, without the variables of a make around this program."""
        values = {"DESTDIR": self.destination, "BUILT": self.built, **self.variables}
        command = ["env", "-i", f"PATH={os.environ['PATH']}", "make", "-s", target, *(f"{name}={path}" for name, path in values.items())]
        return running.run(["sh", "-c", 'umask 077; exec "$@"', "sh", *command])

    def environment(self):
        """Returns the variables for pkg-config, and for programs that load the shared object."""
        paths = {"PKG_CONFIG_PATH": self.path("LIBDIR", "/pkgconfig"), "PKG_CONFIG_SYSROOT_DIR": self.destination}
        libraries = {"LD_LIBRARY_PATH": self.path("LIBDIR"), "PYTHONPATH": self.path("LIBDIR", "/gerfmuod/python")}
        return {**os.environ, **dict.fromkeys(ALLOWED, "1"), **paths, **libraries}


def check_files(tally, tree):
    """Compares the installed files with their list and the headers, their modes with the usual ones, and the links of documents."""
    listed = {tree.destination + path for path in repository.text_of(tree.path(*LIST)).splitlines() if not path.endswith("/")}
    differing = {*repository.files_in(tree.destination)} ^ listed
    tally.judge(not differing, f"the list of installed files differs from them: {sorted(differing)[:5]}")
    headers = sorted("gerfmuod.h" if path.endswith("/gerfmuod.h") else f"gerfmuod/{os.path.basename(path)}" for path in library.HEADERS)
    found = [os.path.relpath(path, tree.path("INCLUDEDIR")) for path in repository.files_in(tree.path("INCLUDEDIR"))]
    tally.judge(sorted(found) == headers, f"not these headers are installed: {headers}")
    executable = (tree.path("PREFIX", "/bin"), *glob.glob(tree.path("LIBDIR", "/*.so*")))
    for folder, folders, names in os.walk(tree.destination):
        for path in (f"{folder}/{name}" for name in [*folders, *names] if not os.path.islink(f"{folder}/{name}")):
            mode, is_executable = os.stat(path).st_mode & 0o777, os.path.isdir(path) or path.startswith(executable)
            tally.judge(mode == (0o755 if is_executable else 0o644), f"{path} has the mode {mode:o}")
    for page in (path for path in repository.files_in(tree.path(*DOCUMENTS)) if path.endswith(".md")):
        dead = docs.dead_links(page)
        tally.judge(not dead, f"dead links in {page}: {dead}")


def check_programs(tally, tree, folder):
    """Runs the lines of sh of a stored table over the installed files, and compares what they print."""
    major, minor, patch = map(int, repository.version().split("."))
    version, older = repository.version(), f"{major - 1}.9" if major else f"0.{minor - 1}"
    is_usual = tree.variables["LIBDIR"] == f"{tree.variables['PREFIX']}/lib"
    values = {
        **tree.variables, "DESTDIR": tree.destination, "FOLDER": folder, "PROGRAM": f"{folder}/program", "SONAME": SONAME,
        "VERSION": version, "NUMBER": repository.version_number(), "PYTHON": sys.executable,
        "BELOW": tree.variables["INCLUDEDIR"][len(tree.variables["PREFIX"]):], "EXAMPLES": tree.path(*DOCUMENTS, "/capi/examples"),
        "CC": "${CC:-cc} $CFLAGS", "CXX": "${CXX:-c++} -std=c++17 $CXXFLAGS",
        "FOUND": f"{major};{major}.{minor};{version};{older}...{version};{major}.{minor}...<{major + 1}",
        # (the package is not at its prefix)
        "PLACE": f"CMAKE_PREFIX_PATH={tree.path('PREFIX')}" if is_usual else f"Gerfmuod_DIR={tree.path('LIBDIR', '/cmake/Gerfmuod')}",
        "NOT_FOUND": f"{older};{major}.{minor}.{patch + 1};{major}.{minor + 1};{major + 1};{older}...<{version};{major + 1}...{major + 2}",
    }
    tables = json.loads(re.sub(r"@(\w+)@", lambda found: str(values[found[1]]), TABLES))
    has_pkg_config = tally.has("pkg-config", "programs over the installed package")
    for needed, expected, line in tables["lines"]:
        if " " in needed and running.run(["sh", "-c", needed]).status:
            tally.skips(line, needed)
        elif (has_pkg_config or needed == "cmake") and (" " in needed or tally.has(needed, line)):
            check(tally, running.run(["sh", "-c", line], env=tree.environment()), line, expected)


def check_uninstall(tally, tree):
    """Installs again over a file of an older version, and compares what is left after `make uninstall`."""
    old, foreign = tree.path("LIBDIR", "/of-an-older-version"), tree.path("LIBDIR", "/foreign")
    with open(tree.path(*LIST), "a", encoding="utf-8") as file:
        file.write(f"{old[len(tree.destination):]}\n")
    for path in (old, foreign):
        write(path, "")
    check(tally, tree.make("install"), "make install, again")
    tally.judge(not os.path.exists(old), "make install leaves a file of the version before")
    compileall.compile_dir(tree.path("LIBDIR", "/gerfmuod/python"), quiet=2)
    check(tally, tree.make("uninstall"), "make uninstall")
    left = repository.files_in(tree.destination)
    tally.judge(left == [foreign], f"make uninstall leaves {left[:5]}, and not only a foreign file")
    tally.judge(tree.make("uninstall").status != 0, "make uninstall succeeds although nothing is installed")
    tree.destination += "-anew"
    check(tally, tree.make("install"), "make install")
    check(tally, tree.make("uninstall"), "make uninstall")
    tally.judge(not os.listdir(tree.destination), f"make uninstall leaves {os.listdir(tree.destination)}")


def check_manual(tally, built, folder):
    """Has groff lay out each page, which then has all words of what `--help` prints, or of its header, except for headings and stars."""
    if not all([tally.has(command, "the manual") for command in ("help2man", "pandoc", "groff")]):
        return
    result = running.run(["packaging/manual", folder], env={**os.environ, "BUILT": built, "VERSION": repository.version()})
    check(tally, result, "packaging/manual")
    for path in repository.files_in(folder):
        name, section = os.path.basename(path)[:-2], path[-1]
        if section == "1":
            program, *arguments = name.split("-")
            text = running.run([f"{built}/bin/{program}", *arguments, "--help"]).out.decode()
        else:
            # (the page of a call is a link to that of its header)
            text = repository.text_of(f"capi/include/{name.replace('_', '/', 1)}", "") or repository.text_of(f"capi/include/{name}", name)
        result = running.run(["groff", "-man", "-Tascii", "-P-cbou", "-rLL=500n", "-rHY=0", f"-I{folder}", path])
        words = (word.rstrip(".") for word in dict.fromkeys(text.split()) if not SIGN.fullmatch(word))
        missing = [word for word in words if word.encode() not in result.out]
        tally.judge(not result.status and not missing, f"{path} lacks {missing[:5]}: {short(result.err)}")


def check_completion(tally, built, folder):
    """Types lines with a tab at each shell, in a folder with a file `goods`, and compares what then runs."""
    lines, expected = zip(*json.loads(TABLES)["completed"])
    write(f"{folder}/goods", "in it\n")
    for program in ("tp", "samples"):
        os.chmod(write(f"{folder}/{program}", COMPLETED.format(f"{built}/bin/{program}", f"{folder}/ran")), 0o755)
    for shell, (option, first) in SHELLS.items():
        if tally.has(shell, "its completion"):
            write(f"{folder}/ran", "")
            typed = [f"{first}; . {repository.TOP}/tools/completion.{shell}; cd {folder}", *(f"{line}\t" for line in lines), "exit\n"]
            command = ["env", f"PATH={folder}:{os.environ['PATH']}", "setsid", "-c", shell, option, "-i"]
            result = terminal.run_at_terminal(command, "\n".join(typed).encode(), is_typed=True)
            ran = repository.text_of(f"{folder}/ran")
            tally.judge(ran == "".join(f"{line}\n" for line in expected), f"{shell} completes {lines} as {ran}, {result.description(2000)}")


def check_release(tally, built):
    """Packs what is built for users, and tries that with the compilers of this machine."""
    environment = {**os.environ, "BUILT": built, "VERSION": repository.version()}
    result = running.run(["tools/release-test", "--here"], env=environment, timeout=1200)
    check(tally, result, "tools/release-test --here", " passed, 0 failed")
    skipped = [line for line in result.out.decode().splitlines() if line.startswith("SKIPPED")]
    print(*skipped, sep="\n", end="\n" * bool(skipped), flush=True)
    tally.skipped += len(skipped)


def arguments(parser):
    parser.add_argument("--sources", action="store_true", help="only whether what is built is of these sources")
    parser.add_argument("--built", metavar="FOLDER", type=os.path.abspath, help="a folder with bin/ and lib/ of any sources")


def run(options):
    tally, folder, built_folder = options.tally, options.temporary, options.built or repository.TOP
    reasons = [] if options.built else [library.reason_not_built(), *map(repository.reason_not_built, ("tp", "samples"))]
    if any(reasons):
        tally.fails(f"{next(filter(None, reasons))}: `make` and `make lib` build what is installed")
    if any(reasons) or options.sources:
        return None
    check_manual(tally, built_folder, f"{folder}/manual")
    check_completion(tally, built_folder, tempfile.mkdtemp(dir=folder))
    if not options.built:
        docs.check_statements(tally, "built")
    for name, variables in (("usual", USUAL), ("other", OTHER)):
        tree = Tree(f"{folder}/{name}", variables, built_folder)
        if check(tally, tree.make("install"), "make install"):
            check_files(tally, tree)
            check_programs(tally, tree, tempfile.mkdtemp(dir=folder))
            check_uninstall(tally, tree)
    check_release(tally, built_folder)
    return None
