"""The files in which a crate's mutants are stored, read and written.

Those that the gate tries are `crates/NAME/must-fail/*.edit`, in the format of `rt`. `crates/NAME/mutants` has all
others, and for each mutant of the crate what killed it. Its format is described in CONTRIBUTING.md.
"""
import collections
import functools
import re
from typing import NamedTuple

from . import running
from .repository import files_in, text_of

HEAD = "# The crate's mutants that the gate does not try, and what killed each mutant. The format: CONTRIBUTING.md, A mutant."
NOTES = "of", "by", "on"
# a line: an old text, a new one, a further file, a note (of a digest, by a toolchain, on a day), a mutant's name with its file unless
# the gate tries it, and what killed it
LINE = re.compile(
    r"- (?P<old>.+)|(?P<plus>\+)(?: (?P<new>.*))?|in (?P<file>\S+)|(?P<note>of|by|on) (?P<value>.+)"
    r"|(?P<name>\w+)(?: in (?P<first>\S+?))?(?::(?: (?P<killer>.*))?)?|#.*|"
)
EDIT = re.compile(r"^(file|old|new): ?(.*)$", re.M)
# how lines in the format of `rt` begin in a file `mutants`
SIGNS = {"file": "in", "old": "-", "new": "+"}


class Fault(Exception):
    """A file of mutants that cannot be read; its text says why."""


Change = collections.namedtuple("Change", "file old new")
# a file `mutants`: its mutants, what killed each mutant of the crate by name, and the notes of its head by their first word
MutantFile = collections.namedtuple("MutantFile", "mutants killers notes")


class Mutant(NamedTuple):
    """A mutant: its name, whether the gate tries it, and its changes. The first change's `old` is in its file exactly once, and each
    further one in what the changes before it made of its file."""

    name: str
    in_gate: bool
    changes: tuple

    @property
    def text(self):
        """The mutant in the format of `rt`."""
        return self.written("file: {}\n", "old: {}\nnew: {}\n", None)

    def written(self, head, pair, file):
        """Returns the changes as lines in a format; a line names the file if it is another one than before."""
        lines = []
        for change in self.changes:
            lines += [head.format(change.file)] * (change.file != file) + [pair.format(change.old, change.new)]
            file = change.file
        return "".join(lines)


def path_of(crate):
    return f"crates/{crate}/mutants"


def parse_edit(name, text):
    lines = "\n".join(f"{SIGNS[key]} {value}" for key, value in EDIT.findall(text))
    return parse(f"{name}.edit", f"{name} {lines}").mutants[0]._replace(in_gate=True)


def parse(path, text):
    changes, killers, notes = {}, {}, {}
    name = file = old = None
    for number, line in enumerate(text.split("\n"), 1):
        part = LINE.fullmatch(line)
        is_in_place = part and (old is not None) == bool(part["plus"]) and (file or not part["old"] and not part["file"])
        if not is_in_place or part["name"] in {*changes, *killers}:
            raise Fault(f"{path}:{number}: a line without the one before it, a second entry, or of an unknown form: {line}")
        if part["plus"]:
            changes[name].append(Change(file, old, part["new"] or ""))
        elif part["note"]:
            notes.setdefault(part["note"], part["value"])
        elif part["name"]:
            name, file = part["name"], part["first"]
            changes.update({name: []} if file else {})
            killers.update({name: part["killer"]} if part["killer"] else {})
        old, file = part["old"], part["file"] or file
    empty = [name for name, found in changes.items() if not found]
    if empty or old is not None:
        raise Fault(f"{path}: {' '.join(empty) or name} has no lines `-` and `+`, or only the first of two")
    return MutantFile(tuple(Mutant(name, False, tuple(found)) for name, found in changes.items()), killers, notes)


@functools.lru_cache(maxsize=None)
def file_of(crate):
    return parse(path_of(crate), text_of(path_of(crate), ""))


@functools.lru_cache(maxsize=None)
def mutants_of(crate):
    """Returns all mutants of a crate by name: first those of the gate, then the others in the order of their file."""
    folder = f"crates/{crate}/must-fail"
    edits = [path for path in files_in(folder) if path.endswith(".edit")]
    mutants = [parse_edit(path[len(folder) + 1:-len(".edit")], text_of(path)) for path in edits] + [*file_of(crate).mutants]
    if twice := [name for name, count in collections.Counter(mutant.name for mutant in mutants).items() if count > 1]:
        raise Fault(f"{crate}: two mutants have one name: {' '.join(twice)}")
    return {mutant.name: mutant for mutant in mutants}


def fault_of(crate, mutant):
    """Returns why a mutant cannot be applied: a text that it replaces is not in its file exactly once; an empty text if it can."""
    texts = {}
    for change in mutant.changes:
        text = texts.get(change.file, text_of(f"crates/{crate}/{change.file}", ""))
        found = text.count(change.old)
        if found != 1:
            return f"{crate}/{mutant.name}: its text is in {change.file} {found} times, and not once: {change.old.strip()}"
        texts[change.file] = text.replace(change.old, change.new)
    return ""


def rendered(mutants, killers, notes):
    lines = [f"{HEAD}\n", *(f"{word} {notes[word]}\n" for word in NOTES)]
    for mutant in sorted(mutants, key=lambda mutant: not mutant.in_gate):
        file = mutant.changes[0].file
        lines.append(f"{mutant.name}{'' if mutant.in_gate else f' in {file}'}: {killers[mutant.name]}\n")
        lines.append("" if mutant.in_gate else mutant.written("in {}\n", "- {}\n+ {}\n", file))
    # (a new text may be empty)
    return re.sub(r"^\+ $", "+", "".join(lines), flags=re.M)


def write(crate, killers, notes):
    running.write(path_of(crate), rendered(mutants_of(crate).values(), killers, notes))
    file_of.cache_clear()
    mutants_of.cache_clear()
