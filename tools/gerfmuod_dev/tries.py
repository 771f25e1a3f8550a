"""Runs every test, every program, and the cases of the programs, and compares what they print.

They are runs of `rt try`, which proves nothing: `make gate` does. `tp` and `samples` and their cases run with bin/tp and bin/samples
if these were built from these sources. Prints a line for the tests of a crate, for a program, for its cases, whose exit statuses
are compared, and their outputs if they are stored, and for the pictures of docs/figures; if something failed, prints the output
too. With --write, what the cases print is stored instead of compared. Each test, program and case counts.
"""
import collections
import difflib
import fnmatch
import functools
import hashlib
import os
import pathlib
import re
import shlex
import shutil
import subprocess
import tempfile
from concurrent.futures import ThreadPoolExecutor

from . import repository, running
from .repository import figure, text_of

# for each program a folder of cases, whose names begin with the expected status
STATUSES = "tools/data/statuses"
# for each program whose cases have stored outputs a file: what each case prints on standard output, and then on standard error. A case
# may say its command instead of having files: after `$ `, as in a shell, with `< FILE` or `printf 'TEXT' |` or another run before it. What
# it prints may then have `*`, for any text.
OUTPUTS = "tools/data/outputs"
# the time limit of a run: a test of 33 MB takes half a minute alone, and more on two processors that others use
SECONDS = "900"
# an output of more bytes, such as a picture, is stored as its length and a digest
MOST_STORED = 4_000
TRACES = "tools/data/traces"
UNTIL_FAULT = ("run", "--until-fault")
# the stored trace of a picture, the arguments of `samples draw`, and the exit status with which it ends
Picture = collections.namedtuple("Picture", "trace arguments status", defaults=[("run",), 0])
PICTURES = {
    "a-run": Picture("tools/data/pictures/a-run"),
    "a-wave-is-a-cut": Picture("tools/data/pictures/a-message-overtakes-the-wave"),
    "a-message-received-twice": Picture(f"{TRACES}/a-message-received-twice", UNTIL_FAULT, 2),
    "a-task-done-twice": Picture(f"{TRACES}/a-task-done-twice", UNTIL_FAULT, 2),
    "an-end-announced-one-wave-early": Picture(f"{TRACES}/an-end-announced-one-wave-early", UNTIL_FAULT, 2),
}
# the arguments of a program and its input, or the arguments of a first run that prints the input
Case = collections.namedtuple("Case", "arguments input first", defaults=[None])
# what a try came to: what was tried, how many tests or cases, how many of them failed, and what to print then
Outcome = collections.namedtuple("Outcome", "what count failed details")


def rt_try(crate, *options, stdin=os.devnull, stderr=subprocess.STDOUT):
    command = ["rt", "try", "--seconds", SECONDS, *options]
    return running.run(command, stdin, cwd=f"crates/{crate}", stderr=stderr, timeout=2 * int(SECONDS))


def try_tests(crate):
    result = rt_try(crate, "--test")
    output = result.out.decode(errors="replace")
    counts = re.search(r"^test result: .*?(\d+) passed; (\d+) failed", output, re.M)
    passed, failed = map(int, counts.groups()) if counts else (0, 1)
    failed = max(failed, int(result.status != 0))
    return Outcome(f"{crate}: tests", passed + failed, failed, output)


def difference(expected, output):
    return "\n".join(difflib.unified_diff(expected.splitlines(), output.splitlines(), "expected", "printed", lineterm=""))


def is_built(program):
    return program in repository.BUILT and not repository.reason_not_built(program)


def run_built(program, stdin, arguments_of, files=()):
    with tempfile.TemporaryDirectory() as folder:
        for path in files:
            shutil.copy(path, folder)
        options = {"executable": f"{repository.TOP}/bin/{program}", "cwd": folder, "env": {}}
        return running.run(["program", *arguments_of], stdin, **options)


def try_program(crate):
    folder = f"crates/{crate}"
    files = [os.path.abspath(path) for path in repository.files_in(f"{folder}/data")]
    arguments_of, stdin = text_of(f"{folder}/args", "").splitlines(), text_of(f"{folder}/stdin", "").encode()
    if is_built(crate):
        result = run_built(crate, stdin, arguments_of, files)
    else:
        data = [word for path in files for word in ("--data", f"{os.path.basename(path)}={path}")]
        result = rt_try(crate, *data, "--", *arguments_of, stdin=stdin, stderr=subprocess.PIPE)
    expected, status, out = text_of(f"{folder}/stdout", ""), int(text_of(f"{folder}/status", "") or 0), result.out.decode()
    details = f"status {result.status}, expected {status}\n{difference(expected, out)}{result.err.decode(errors='replace')}"
    return Outcome(f"{crate}: the program", 1, int((result.status, out) != (status, expected)), details)


def stored(text):
    if len(text) <= MOST_STORED:
        return text
    return f"({len(text)} bytes of SHA-256 {hashlib.sha256(text.encode()).hexdigest()})\n"


def stored_outputs(path):
    return dict(re.findall(r"^== (\S+)\n(.*?)(?=^== |\Z)", text_of(path, ""), re.M | re.S))


def case_of(command):
    """Returns the case of a command as in a shell: a program's arguments, from a file, `printf` or a first run of the program."""
    first, pipe, last = command.rpartition(" | ")
    words = shlex.split(last)
    if "<" in words:
        return Case(words[1:-2], pathlib.Path(words[-1]).read_bytes())
    is_printed = first.startswith("printf ")
    text = shlex.split(first)[1].encode().decode("unicode_escape") if is_printed else ""
    return Case(words[1:], text.encode(), shlex.split(first)[1:] if pipe and not is_printed else None)


def cases_of(program):
    """Returns the cases of a program by name: an input with the arguments next to it, one a line, or a command in the file of outputs."""
    folder, cases = f"{STATUSES}/{program}", {}
    for name in sorted(os.listdir(folder) if os.path.isdir(folder) else ()):
        if not name.endswith(".args"):
            cases[name] = Case(text_of(f"{folder}/{name}.args", "").splitlines(), pathlib.Path(folder, name).read_bytes())
    for name, text in stored_outputs(f"{OUTPUTS}/{program}").items():
        if text.startswith("$ "):
            cases[name] = case_of(text[2:].partition("\n")[0])
    return cases


def run_cases(program, cases):
    """Runs a program, unproved if it is not built, on cases; returns the status and the output of each by name."""
    firsts = {name: Case(case.first, b"") for name, case in cases.items() if case.first}
    for name, (_, text) in (run_cases(program, firsts) if firsts else {}).items():
        cases = {**cases, name: Case(cases[name].arguments, text.encode())}
    if is_built(program):

        def run_case(case):
            result = run_built(program, case.input, case.arguments)
            return result.status, (result.out + result.err).decode(errors="replace")

        return dict(zip(cases, running.in_parallel(cases.values(), run_case)))
    with tempfile.TemporaryDirectory() as folder:
        for name, case in cases.items():
            pathlib.Path(folder, name).write_bytes(case.input)
            running.write(f"{folder}/{name}.args", "".join(f"{word}\n" for word in case.arguments))
        output = rt_try(program, "--cases", folder).out.decode(errors="replace")
    found = re.findall(r"^== (\S+)\n(.*?)^case=\1 run=ended status=(\d+)", output, re.M | re.S)
    return {name: (int(status), text) for name, text, status in found}


def agrees(text, expected):
    """Whether a case printed what is stored, which after a command may have `*`."""
    command, printed = re.match(r"(\$ .*\n)?((?s:.*))", expected).groups()
    return stored(text) == printed or command and "*" in printed and fnmatch.fnmatchcase(text, printed.replace("[", "[[]"))


def is_rejected(name, text):
    """Whether a case printed another version than the library's, or a small graph that Graphviz, if it is installed, refuses."""
    if name.endswith("-the-version"):
        return text.split()[-1:] != [repository.version()]
    if not text.startswith("digraph") or len(text) > MOST_STORED or not shutil.which("dot"):
        return False
    result = running.run(["dot", "-Tsvg"], text.encode())
    return result.status != 0 or result.err != b""


def try_cases(crate, cases):
    results, expected = run_cases(crate, cases), stored_outputs(f"{OUTPUTS}/{crate}")
    details = []
    for name in cases:
        status, text = results.get(name, (None, ""))
        has_text = not expected or agrees(text, expected.get(name, ""))
        if f"{status}" != name[0] or not has_text or is_rejected(name, text):
            details.append(f"{name}: status {status}, {difference(expected.get(name, ''), stored(text))}\n")
    return Outcome(f"{crate}: cases with their {'outputs' if expected else 'statuses'}", len(cases), len(details), "".join(details))


def try_pictures(crate):
    cases = {name: Case(["draw", *it.arguments], pathlib.Path(it.trace).read_bytes()) for name, it in PICTURES.items()}
    results, differing = run_cases(crate, cases), []
    for name, picture in PICTURES.items():
        (status, text), expected = results.get(name, (None, "")), text_of(figure(name))
        if status != picture.status or not text.startswith(expected) or status == 0 and text != expected:
            differing.append(name)
    return Outcome(f"{crate}: pictures of docs/figures", len(PICTURES), len(differing), " ".join(differing))


def jobs_of(crates):
    """Yields what is tried of each crate; the cases of a program that is not built in groups that are tried at the same time."""
    for crate in crates:
        if any("#[test]" in text_of(path) for path in repository.files_in(f"crates/{crate}/src")):
            yield functools.partial(try_tests, crate)
        if os.path.exists(f"crates/{crate}/src/main.rt"):
            yield functools.partial(try_program, crate)
        if cases := list(cases_of(crate).items()):
            groups = 1 if is_built(crate) or len(cases) < 9 else repository.lanes(repository.MEMORY_OF_A_TRIAL)
            yield from (functools.partial(try_cases, crate, dict(cases[first::groups])) for first in range(groups))
        if crate == "samples":
            yield functools.partial(try_pictures, crate)


def arguments(parser):
    parser.add_argument("crates", nargs="*", metavar="CRATE", help="all crates of crates.txt by default")
    parser.add_argument("--write", action="store_true", help="store what the cases of these crates print")


def run(options):
    crates = repository.crates()
    unknown = [name for name in options.crates if name not in crates]
    if unknown or options.write and not options.crates:
        options.parser.error(f"no crate of crates.txt: {' '.join(unknown)}" if unknown else "--write needs the names of crates")
    for crate in options.crates if options.write else ():
        expected, printed = stored_outputs(f"{OUTPUTS}/{crate}"), ""
        for name, (_, text) in run_cases(crate, cases_of(crate)).items():
            kept = expected.get(name, "")
            command = kept.partition("\n")[0] + "\n" if kept.startswith("$ ") else ""
            printed += f"== {name}\n" + (kept if agrees(text, kept) else command + stored(text))
        running.write(f"{OUTPUTS}/{crate}", printed)
    jobs, tally = list(jobs_of(options.crates or crates)), options.tally
    # the crates at the top take longest
    with ThreadPoolExecutor(repository.lanes(repository.MEMORY_OF_A_TRIAL)) as pool:
        for what, count, failed, details in pool.map(lambda job: job(), reversed(jobs)):
            print(f"{what}: {count - failed} of {count} passed", flush=True)
            tally.passed += count - failed
            if failed:
                tally.fails(f"{what}\n{details}", failed)
