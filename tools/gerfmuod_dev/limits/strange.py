"""Runs programs with strange streams, texts that are too long, and too few threads: each case by a line of bash, in which it is "$@"."""
import itertools
import json
import os
import re
import shutil

from .. import repository, running
from ..repository import TOP, text_of
from ..running import Result
from .terminal import USER, reasons

READ_FAULT, LONG_FAULT = (Result(1, b"", b"fault %s\n" % what) for what in (b"read", b"too long"))
HISTORY_FULL = Result(3, b"", b"refused 16 HistoryFull\n")
BAD_SPEC = Result(1, b"", b"refused 26 BadSpec\n")
NO_TEXT = Result(2, b"syntax line 1\n", b"")
ONE_NODE = b"node 0 pending 1 sent 0 received 0\ntotal pending 1 sent 0 received 0 under 0\nquiet no\n"
AUDITED = b"steps 1048576\ntasks 0 done 0\nmessages 0 received 0\nnot ended\n"
MOST_BYTES, MOST_STEPS = 33_554_432, 1_048_576
INPUTS = {"sim": b"nodes 1\n", "audit": b"trace 1\nnodes 1\n"}
# streams that the shell opens: closed, a directory, only for writing
READING = "<&-", "< /", "0> /dev/null"
STATUS = "exit ${PIPESTATUS[0]}"
OTHER_USER = "setpriv --reuid=61234 --regid=61234 --clear-groups"


def arguments_and_pools():
    """Yields invalid arguments, pools that need more events than a run may have, and one that does not."""
    yield Result(1, b"", b"fault words\n"), ["run", b"reduce:4:\xff"]
    yield BAD_SPEC, ["run", "9" * 100_000]
    yield BAD_SPEC, ["run", ""]
    yield HISTORY_FULL, ["run", "product:64:1:0", "--nodes", "2"]
    yield HISTORY_FULL, ["run", "product:54:1:0", "--generations", "3"]
    yield Result(0, b"tasks 262144\nmessages 0\nended\n", b""), ["run", "product:64:1:0"], b"", f'"$@" | tail -n 3; {STATUS}'


def streams():
    """Yields cases in which standard input or output is closed, full or not read; a run reads nothing."""
    for stream in READING:
        for command in INPUTS:
            yield READ_FAULT, [command], b"", f'exec "$@" {stream}'
        yield Result(0, b"66\ntasks 7\nmessages 0\nended\n", b""), ["run", "reduce:4:0"], b"", f'exec "$@" {stream}'
    # (nothing can be printed then, so only the status says it)
    yield Result(1, b"", b""), ["run", "reduce:4:0"], b"", 'exec "$@" >&- 2>&-'
    # (the output is longer than a pipe holds)
    yield Result(1, b"ok\n", b""), ["sim"], INPUTS["sim"] + b"ready 0\n" * 100_000, f'"$@" | head -n 1; {STATUS}'


def lengths(program):
    """Yields texts of the most bytes and steps that are accepted, and of one more; a text without an end, and the program itself."""
    for command in INPUTS:
        yield NO_TEXT, [command], b"x" * MOST_BYTES
        yield LONG_FAULT, [command], b"x" * (MOST_BYTES + 1)
        yield NO_TEXT, [command], program
    yield LONG_FAULT, ["sim"], b"", 'yes | exec "$@"'
    steps, replies = b"open 0 1\nclose 0 1\n" * (MOST_STEPS // 2), b"ok\n" * MOST_STEPS
    yield Result(0, replies + ONE_NODE, b""), ["sim"], INPUTS["sim"] + steps
    yield Result(0, replies + HISTORY_FULL.err + ONE_NODE, b""), ["sim"], INPUTS["sim"] + steps + b"open 0 1\n"
    yield Result(0, AUDITED, b""), ["audit"], INPUTS["audit"] + steps
    yield Result(2, b"line 1048579 " + HISTORY_FULL.err, b""), ["audit"], INPUTS["audit"] + steps + b"open 0 1\n"


def threads(tally):
    """Yields a run of 64 workers in systems that refuse more threads. The limit does not bind root, so another user runs the program."""
    if os.geteuid() or not shutil.which("setpriv") or not shutil.which("prlimit"):
        tally.skips("threads that cannot be started", "root or util-linux")
        return
    # the first thread counts: the start of the second, third .. 65th fails
    for most in (*range(1, 65), 65, 66, 100):
        expected = Result(3, b"", b"refused 17 NoMemory\n") if most < 65 else Result(0, b"66\ntasks 7\nmessages 6\nended\n", b"")
        yield expected, ["run", "reduce:4:0", "--nodes", "8", "--workers", "8"], b"", f'exec {OTHER_USER} prlimit --nproc={most} "$@"'


def strange(tally, options, folder):
    """Runs the program in unusual environments.

    Streams are closed, full or not read, reads are interrupted forever, texts are too long or have too many steps, and the
    system refuses more threads (which is tried as root alone). Each case has an expected status, an output and at most one
    line on standard error. With --quick it tries the interrupted reads and the pools of many events alone.
    """
    # (other users may read this copy)
    program = shutil.copy(options.tp, f"{folder}/tp")
    os.chmod(folder, 0o755)
    os.chmod(program, 0o755)
    library = running.preload_library(tally, "interrupted", folder, "reads that are interrupted forever")
    # (after 67,108,864 interrupted reads the program gives up)
    cases = [(READ_FAULT, [command], INPUTS[command], f'LD_PRELOAD={library} exec "$@"') for command in INPUTS if library]
    more = () if options.quick else (*streams(), *lengths(program), *threads(tally))
    cases += [*arguments_and_pools(), *more]
    for expected, arguments, *more in cases:
        stdin, line = [*more, *[b"", 'exec "$@"'][len(more):]]
        result = running.run(["bash", "-c", line, "bash", program, *arguments], stdin)
        shown = f"{line} {str(arguments)[:200]}: {running.short(result.out)}, {result.description()}"
        tally.judge(result == expected, f"{shown}; expected {expected.description()}")


def manners(tally, options, folder):
    """Runs each program and subcommand in each situation of a table: a closed pipe, a full disk, no file, wrong arguments, help, versions.

    A row of tools/data/limits/manners.json has a line of bash, the arguments that it adds, the status, and patterns of the output
    and of standard error, in which NAME is the program's name. Programs that read have more of them, and some rows are of one command.
    No line of help has more than 80 characters. Examples that the gate has not built are built unproved. Then come `limits reasons`.
    """
    table = json.loads(text_of(f"{TOP}/tools/data/limits/manners.json"))
    folders = {name: "unproved/" * bool(repository.reason_not_built(name)) for name in table["examples"]}
    if unproved := [*filter(folders.get, folders)]:
        tally.judge(not running.run([f"{TOP}/tools/try", *unproved], timeout=None, stdout=None).status, "tools/try")
    readers = [command for command in table["commands"] if command[2]]
    rows = [*itertools.product(table["commands"], table["situations"]), *itertools.product(readers, table["reading"]), *table["alone"]]
    for (name, arguments, stdin), (situation, line, more, status, out, err) in rows:
        program = f"{TOP}/{folders[name]}bin/{name}" if name in folders else getattr(options, name)
        command = ["bash", "-c", line, "bash", program, *arguments, *more]
        result = running.run(command, stdin.encode(), env=USER, cwd=folder)
        is_well = all(re.fullmatch(pattern.replace("NAME", name), text.decode(), re.S) for pattern, text in zip((out, err), result[1:]))
        is_well &= result.status == status and (more != ["--help"] or max(map(len, result.out.decode().split("\n"))) <= 80)
        tally.judge(is_well, f"{situation}, {name} {arguments}: {running.short(result.out)}, {result.description()}")
    reasons(tally, options, folder)
