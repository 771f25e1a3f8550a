"""Proves the crates of the programs, and builds them: bin/tp and bin/samples, or one of them.

The crates are proved side by side, each after those below it in a checkout of its own, and what is proved goes to crates/*/out, where later
checks find it. Prints a line for each crate as it ends; if one is not proved, prints the output of its check, and the status is 1.
"""
import contextlib
import itertools
import os
import queue
import re
import shutil
import subprocess
import tempfile
import time
from concurrent.futures import ThreadPoolExecutor

from . import repository, running

PROGRAMS = ["tp", "samples"]
# the crates that are built for programs in other languages
LIBRARIES = ["gerfmuod"]
# what private checkouts and other copies of crates do not have
NOT_COPIED = shutil.ignore_patterns("out", "must-fail", "mutants")
QUIET = re.compile(r"(== |logic|statements|library|crate|by-macro|only=|so far:|empty contracts|rt: chose)|.*: proved$")


def prove(crate, below, room, jobs, niceness):
    """Proves a crate over those below it in a checkout, and builds it; returns whether that succeeded, and prints it."""
    began, verb = time.time(), "run" if crate.name in PROGRAMS else "check" if crate.is_program else "lib"
    keep(below, room, ["rlib"])
    keep([crate.name], room)
    niced = f"nice -n {niceness}".split() * bool(shutil.which("rt"))  # (else it is `rt` that is missing)
    command = [*niced, *f"rt {verb} --jobs {jobs}{' -- --help' * (verb == 'run')}".split()]
    # (a prover that is ended leaves hundreds of megabytes, which go with the checkout)
    options = {"cwd": f"{room}/crates/{crate.name}", "env": {**os.environ, "TMPDIR": room}, "timeout": None}
    result = running.run(command, stderr=subprocess.STDOUT, **options)
    if result.status:
        lines = [line for line in result.out.decode(errors="replace").splitlines() if not QUIET.match(line)]
        print("\n".join([f"{crate.name}: NOT PROVED", *lines]), flush=True)
        return False
    keep([crate.name], ".", source=room)
    if crate.name in repository.BUILT:
        repository.take(crate.name, room)
    print(f"{crate.name}: proved{f', bin/{crate.name} is built' * (verb == 'run')} ({time.time() - began:.0f} s)", flush=True)
    return True


def prove_all(names):
    """Proves these crates and those below them, with precedence for those that most wait for; returns whether that succeeded."""
    crates, ended, rooms = repository.crates(names), {}, queue.SimpleQueue()
    waiting = {name: sum(name in repository.crates([other]) for other in crates) for name in crates}

    def prove_in_turn(crate):
        if not all([ended[name].result() for name in crate.below]):
            return False
        room = rooms.get()
        try:
            time.sleep(0.1)  # (by then crates that can be proved at the same time have their rooms)
            jobs = max(min(2, len(copies)), 1 + rooms.qsize())
            return prove(crate, repository.crates(crate.below), room, jobs, 19 - 19 * waiting[crate.name] // len(crates))
        finally:
            rooms.put(room)

    with checkouts([]) as (_, copies), ThreadPoolExecutor(len(crates)) as lanes:
        for room in copies:
            rooms.put(room)
        for crate in crates.values():
            ended[crate.name] = lanes.submit(prove_in_turn, crate)
    return all([future.result() for future in ended.values()])


def link(old, new):
    """Links a file that the prover replaces and never changes; copies any other one, and each if the folders have no links."""
    is_library = "/out/rlib/" in f"{old}/" or old.endswith(".oantt")
    try:
        (os.link if is_library else shutil.copy2)(old, new)
    except OSError:
        shutil.copy2(old, new)


def renew(source, target):
    """Copies a folder with what was proved to where another check finds it."""
    shutil.rmtree(target, ignore_errors=True)
    shutil.copytree(source, target, copy_function=link)


def keep(crates, target, parts=("rlib", "incremental"), source="."):
    """Copies what was proved of these crates, and their libraries, to another folder of crates. (A program has no library.)"""
    for name, part in itertools.product(crates, parts):
        if os.path.exists(f"{source}/crates/{name}/out/{part}"):
            renew(f"{source}/crates/{name}/out/{part}", f"{target}/crates/{name}/out/{part}")


@contextlib.contextmanager
def checkouts(crates):
    """Yields a folder, and a checkout below it for each processor, each with what was proved of these crates; removes all at the end."""
    with tempfile.TemporaryDirectory(prefix="gerfmuod-") as top:
        copies = [f"{top}/{number}" for number in range(repository.lanes(repository.MEMORY_OF_A_CHECK))]
        for copy in copies:
            shutil.copytree("crates", f"{copy}/crates", ignore=NOT_COPIED)
            for name in ("crates.txt", "HANDLES"):
                shutil.copy2(name, copy)
            keep(crates, copy)
        yield top, copies


def arguments(parser):
    parser.add_argument("program", nargs="?", choices=PROGRAMS, help="both programs by default")


def run(options):
    programs = [options.program] if options.program else PROGRAMS
    what = f"Proves {len(repository.crates(programs))} crates, and builds {' and '.join(f'bin/{name}' for name in programs)}"
    print(f"{what}: half an hour on four processors the first time, and later what changed.", flush=True)
    print("Proved and built." if (is_well := prove_all(programs)) else "NOT PROVED.")
    return int(not is_well)
