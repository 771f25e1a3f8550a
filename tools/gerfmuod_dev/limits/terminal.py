"""Runs the programs with pseudo-terminals as their standard error and standard input, and without."""
import contextlib
import io
import json
import os
import pty
import re
import signal
import subprocess
import tempfile
import threading
import time

from .. import running
from ..repository import TOP, text_of
from ..running import Result

LINE = rb"\r[0-9,]+ of [0-9,]+ tasks(, [0-9,]+ of [0-9,]+ steps)?"
# lines of progress, the last of them cleared
PROGRESS = re.compile(rb"(" + LINE + rb")+\r\x1b\[K")
END_OF_INPUT = b"\x04"
# a run of `tp` that takes over a second if it is stopped on its way
LONG = ["run", "product:64:2:0", "--workers", "2", "--generations", "9"]
# runs by kind: `reasons` has for each way to an error of `tp` the arguments, the input, the result, and the reason at a terminal, which
# other errors do not have; the others have the input, the arguments and what is printed
CASES = json.loads(text_of(f"{TOP}/tools/data/limits/terminal.json"))
# the environment of a user, to whom reasons are printed
USER = {name: value for name, value in os.environ.items() if name != "GERFMUOD_QUIET"}
# the most cells whose step, in blocks of one, has enough events at one node; at two nodes it needs more than there are
MOST_CELLS = 131_072


def pause(process):
    """Stops a process for a second once it has several threads."""
    while process.poll() is None and len(os.listdir(f"/proc/{process.pid}/task")) == 1:
        time.sleep(0.001)
    time.sleep(0.05)
    process.send_signal(signal.SIGSTOP)
    time.sleep(1)
    process.send_signal(signal.SIGCONT)


def run_at_terminal(command, stdin=os.devnull, is_typed=False, first=None, until=None):
    """Runs a program with a terminal as its standard error. Its input is a file, or a text, which may be typed at another terminal. After
    its start `first` is called, and it is killed once the terminal shows what `until` matches, or the time limit is over."""
    (master, slave), (keyboard, typed), text = pty.openpty(), pty.openpty(), b""
    with tempfile.TemporaryFile() as out, open(stdin, "rb") if isinstance(stdin, str) else tempfile.TemporaryFile() as source:
        if isinstance(stdin, bytes) and not is_typed:
            source.write(stdin)
            source.seek(0)
        process = subprocess.Popen(command, stdin=typed if is_typed else source, stdout=out, stderr=slave, env=USER)
        os.close(slave)
        timer = threading.Timer(running.SECONDS, process.kill)
        timer.start()
        if is_typed:
            os.write(keyboard, stdin + END_OF_INPUT)
        if first:
            first(process)
        # (reading fails once no process has the terminal open)
        with contextlib.suppress(OSError):
            while piece := os.read(master, io.DEFAULT_BUFFER_SIZE):
                text += piece
                if until and re.match(until, text):
                    process.kill()
        code = process.wait()
        timer.cancel()
        for descriptor in (master, keyboard, typed):
            os.close(descriptor)
        out.seek(0)
        return Result(code if code >= 0 else 128 - code, out.read(), text.replace(b"\r\n", b"\n"))


def judge(tally, command, expected, result):
    """Counts whether a result is the expected one; any progress that was cleared is left out."""
    result = result._replace(err=PROGRESS.sub(b"", result.err))
    tally.judge(result == expected, f"{command[1:]}: {result.description()}, expected {expected.description()}")


def reasons(tally, options, _):
    """Runs `tp` with and without a terminal as its standard error.

    Output and status are the same. A second line gives the reason of an error, if there is one, unless the environment has GERFMUOD_QUIET.
    At a terminal the program announces that it reads there. A run of over a second prints its progress there, and clears it at its end.
    """
    for arguments, text, status, out, err, reason in CASES["reasons"]:
        command, text = [options.tp, *arguments], text.encode()
        judge(tally, command, Result(status, out.encode(), err.encode()), running.run(command, text))
        for result in running.run(command, text, env=USER), run_at_terminal(command, text):
            judge(tally, command, Result(status, out.encode(), (err + reason).encode()), result)
    piped, paused = running.run([options.tp, *LONG]), run_at_terminal([options.tp, *LONG], first=pause)
    tally.judge(not piped.status and piped.out and not piped.err, f"a long run, piped: {piped.description()}")
    is_well = (paused.status, paused.out) == (0, piped.out) and PROGRESS.fullmatch(paused.err)
    tally.judge(is_well, f"a long run at a terminal: {paused.description()}")
    for name, text in ("sim", b"nodes 1\n"), ("audit", b"trace 1\nnodes 1\n"):
        command, announced = [options.tp, name], f"reads standard input: tp {name} < FILE\n"
        judge(tally, command, running.run(command, text)._replace(err=announced.encode()), run_at_terminal(command, text, is_typed=True))


def progress(tally, options, folder):
    """Runs the samples over borrowed data at a terminal, and on inputs that are too large to be stored.

    Runs without an end in sight have to print their progress. Runs that end have to leave the terminal clear, to print on
    standard output what they print without a terminal, and with `--quiet` no progress. If standard input is a terminal too, they
    announce once what they read. Steps of too many events are refused, and so is an argument that is not UTF-8.
    """
    grid = [" ".join(str((row * 37 + column * 101) % 1000) for column in range(420)) for row in range(420)]
    rod, most = [number * 7919 % 100_003 for number in range(2000)], [0] * MOST_CELLS
    inputs = {"rod": rod, "grid": grid[:100], "matrices": [*grid, "", *grid], "most": most, "more": [*most, 0]}
    for name, lines in inputs.items():
        running.write(f"{folder}/{name}", lines)
    for name, arguments in CASES["endless"]:
        result = run_at_terminal([options.samples, *arguments], f"{folder}/{name}", until=LINE)
        tally.judge(re.match(LINE, result.err), f"{arguments} printed no progress: {result.description()}")
    for name, arguments in CASES["ending"]:
        command, stdin = [options.samples, *arguments], f"{folder}/{name}"
        piped = running.run(command, stdin)
        tally.judge(not piped.status and piped.out and not piped.err, f"{arguments}, piped: {piped.description()}")
        judge(tally, command, piped, run_at_terminal(command, stdin))
        quiet = run_at_terminal([*command, "--quiet"], stdin)
        tally.judge(quiet == piped, f"{arguments} --quiet at a terminal: {quiet.description()}")
    for text, arguments, what, lines, silent in CASES["typed"]:
        command, text = [options.samples, *arguments], text.encode()
        piped, announced = running.run(command, text), f"Reading {what} from standard input up to Ctrl-D{lines} < FILE\n"
        judge(tally, command, piped._replace(err=announced.encode()), run_at_terminal(command, text, is_typed=True))
        if silent:
            judge(tally, command, piped, run_at_terminal([*command, *silent], text, is_typed=True))
        judge(tally, command, running.run([*command, "--help"]), run_at_terminal([*command, "--help"], b"", is_typed=True))
    for name, arguments, status, out, err in CASES["refused"]:
        command = [options.samples, *arguments]
        judge(tally, command, Result(status, out.encode(), err.encode()), running.run(command, f"{folder}/{name}"))
