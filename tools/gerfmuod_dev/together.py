"""Tries mutants of different functions of a crate in one check.

A function is proved by the contracts of what it calls, not by their bodies. So if each mutant of a check changes the
body of another function, and none of these functions calls another one, what the prover refuses in a function is due to
the mutant that is there. A mutant that survives in its own function needs a check of its own.
"""
import re
import subprocess
from typing import NamedTuple

from .build import renew
from .contracts import Function, items_of
from .mutant_files import mutants_of
from .repository import text_of
from .running import run, write

# what is lost if a check with all of them does not compile
MOST = 14
PLACE = re.compile(r"(?:note: )?(?:\./)?(\S+?):(\d+):\d+: ")
# a proof file that names what a mutant took away says nothing of a contract, and nor does what cites that proof
NAMES_ONLY = re.compile(r"(note: )?(\./)?proofs/.*(has no field|is not in scope|has no `|was not admitted)")


class PlacedMutant(NamedTuple):
    """A mutant of one function, the text below the function's name, and the edits: where the old text begins, that text, the new one."""

    name: str
    function: Function
    text: str
    edits: tuple


def place(mutant, crate):
    """Returns a mutant with the function that it changes, or nothing if it changes more than the body of one function."""
    path = f"crates/{crate}/{mutant.changes[0].file}"
    text = text_of(path, "")
    is_in_code = path.endswith(".rt") and len({change.file for change in mutant.changes}) == 1
    if not is_in_code or not all(text.count(change.old) == 1 for change in mutant.changes):
        return None
    edits = tuple((text.index(change.old), change.old, change.new) for change in mutant.changes)
    lines = [text.count("\n", 0, start) for start, _, _ in edits]
    for function in (item for item in items_of(crate, path) if isinstance(item, Function)):
        if all(line in function.body for line in lines):
            below = text.split("\n")[function.body.start - function.head.count("\n"):function.body.stop]
            return PlacedMutant(mutant.name, function, "\n".join(below), edits)
    return None


def groups_in(crate, names):
    """Returns those of these mutants of a crate that can be tried together, as groups: each is in the first group that it fits."""
    groups = []

    def are_apart(one, other):
        """Whether the functions have two names, and neither calls the other one or passes it on."""
        names, texts = (one.function.name, other.function.name), (other.text, one.text)
        return names[0] != names[1] and not any(re.search(rf"\b{name}\b *[(),]", text) for name, text in zip(names, texts))

    for mutant in filter(None, (place(mutants_of(crate)[name], crate) for name in names)):
        fits = (group for group in groups if len(group) < MOST and all(are_apart(mutant, other) for other in group))
        group = next(fits, [])
        groups += [] if group else [group]
        group.append(mutant)
    return groups


def apply(room, group):
    originals = {mutant.function.file: text_of(f"{room}/{mutant.function.file}") for mutant in group}
    for file, text in originals.items():
        edits = [edit for mutant in group if mutant.function.file == file for edit in mutant.edits]
        for start, old, new in sorted(edits, reverse=True):
            text = text[:start] + new + text[start + len(old):]
        write(f"{room}/{file}", text)
    return originals


def is_in(error, mutant):
    """Whether an error of the prover names the function of a mutant, in its code or in its proof."""
    (file, line), function = PLACE.match(error).groups(), mutant.function
    if function.file.endswith(f"/{file}"):
        return function.first <= int(line) - 1 <= function.body.stop
    # (a proof is in a folder of the function's name, below one for its type)
    return file.startswith("proofs/") and file.split("/")[-2] == function.name


def try_group(crate, room, proved, group):
    """Checks a crate with all mutants of a group, in a copy; returns the first error in the function of each that is refused."""
    folder = f"{room}/crates/{crate}"
    renew(proved, f"{folder}/out/incremental")
    originals = apply(room, group)
    try:
        result = run(["rt", "check", "--jobs", "1"], cwd=folder, stderr=subprocess.STDOUT, timeout=None)
    finally:
        for file, text in originals.items():
            write(f"{room}/{file}", text)
    lines = result.out.decode(errors="replace").splitlines()
    if result.status != 1 or not any(line.startswith("logic=not-proved") for line in lines):
        return {}
    placed = [line for line in lines if PLACE.match(line) and not NAMES_ONLY.match(line)]
    errors = [line for line in placed if ": error" in line or line.startswith("note: ")]
    first = {mutant.name: next((error for error in errors if is_in(error, mutant)), None) for mutant in group}
    return {name: f"refused, as it must be: {error[:160]}" for name, error in first.items() if error}
