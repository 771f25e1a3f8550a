"""Finds the definitions of lower crates that a crate can see: those that its files import, those that these import, and so on.

A file imports definitions by `use Rattle.CRATE.specs.FILE`, declarations of types by `use Rattle.CRATE.specs.declared.FILE.TYPE`, and
types and calls by `use CRATE::NAME`. What a type or a call of a lower crate means is in its declaration and its contract, so these are
followed to what they name; bodies and private fields are not. What is reached by none of this cannot change what the prover says.
"""
import functools
import os
import re
from typing import NamedTuple

from . import repository
from .contracts import TYPE, Function, block_at, contracts_of, items_of, owner_of
from .mutant_files import Fault
from .repository import text_of

# an import of several names: `use A.{B.x, C.{y, z}}`
GROUP = re.compile(r"^( *(?:pub )?(?:ghost )?use )([^\s{]+)\.\{(.*)\}(;?)$", re.M)
GHOST_IMPORT = re.compile(r"^ *(?:pub )?(?:ghost )?use Rattle\.(\w+)\.specs(?:\.([\w.]+?))?(?:\.\{([^}]*)\})?(?: as (\w+))?;?$", re.M)
GHOST_PATH = re.compile(r"Rattle\.(\w+)\.specs\.([\w.]*\w)")
IMPORT = re.compile(r"^ *(?:pub )?use (\w+)::(?:[\w:]*::)?(?:\{([^}]*)\}|(\w+));$", re.M)
PATH = re.compile(r"\b(\w+)::(?:\{([^}]*)\}|(\w+))")
DECLARATION = re.compile(r"(?:pub(?:\([^)]*\))? )?(?:struct|enum|trait|type|const|static) |(?:unsafe )?impl\b.* for ")
# what an `impl` says of its type
GHOST_VALUE = re.compile(r"^    ghost \w+ = \{.*?\};$", re.M | re.S)
# a field of a struct that other crates cannot use
STRUCT = re.compile(r"(?:pub(?:\([^)]*\))? )?struct ")
PRIVATE_FIELD = re.compile(r"^    (?!pub |ghost )\w+: .*,\n", re.M)


class Part(NamedTuple):
    """A part of a file that a crate can see. The kind is `definitions` for all of a file of specs/, `declaration` for what a file of
    code declares under a name, or all that it declares if the name is empty, and `interface` for the declaration and the contracts."""

    path: str
    name: str
    kind: str

    @property
    def crate(self):
        return self.path.split("/")[1]


def paths_of(path, names):
    """Returns the paths of what `PATH.{NAMES}` imports."""
    found, places = [], [path]
    for before, mark in re.findall(r"([^{},]*)([{},]|$)", names):
        if mark == "{":
            places.append(f"{places[-1]}.{before.strip().rstrip('.')}")
        elif before.strip():
            found.append(f"{places[-1]}.{before.strip()}")
        if mark == "}":
            places.pop()
    return found


def one_a_line(text):
    """Returns a text in which each imported name has an import of its own."""

    def lines(group):
        parts = (whole.rpartition(".") for whole in paths_of(group[2], group[3]))
        return "\n".join(f"{group[1]}{path}.{{{name}}}{group[4]}" for path, _, name in parts)

    return GROUP.sub(lines, text)


def listed(several, single=""):
    return re.findall(r"[^\s,]+", several) if several else [single] if single else []


@functools.lru_cache(maxsize=None)
def blocks_in(path):
    """Returns what a file of code declares, as pairs of a name and the text."""
    lines, found = text_of(path).split("\n"), []
    for place, line in enumerate(lines):
        if DECLARATION.match(line):
            block, declared = block_at(lines, place), TYPE.match(line)
            found.append((declared[3], block) if declared else (owner_of(line), "\n".join(GHOST_VALUE.findall(block))))
    return found


@functools.lru_cache(maxsize=None)
def files_with(crate, name):
    """Returns the files of a crate that declare or implement a name, as a tuple; a name that its lib.rt passes on is looked up there."""
    files = {function.file for function in contracts_of(crate)[0].values() if name == (function.owner or function.name)}
    files.update(path for path in repository.files_in(f"crates/{crate}/src") if any(name == declared for declared, _ in blocks_in(path)))
    exports = IMPORT.findall(text_of(f"crates/{crate}/src/lib.rt", ""))
    others = [other for other, several, single in exports if other != crate and name in listed(several, single)]
    return tuple(sorted(files.union(*(files_with(other, name) for other in others))))


def interfaces(crate, names):
    return [(name, Part(path, name, "interface")) for name in names for path in files_with(crate, name)]


def first_of(crate, folder, parts, end):
    """Returns the path of the file that the first of these parts of a name lead to, as a list, which may be empty."""
    paths = [f"crates/{crate}/{folder}/{'/'.join(parts[:count])}{end}" for count in range(len(parts), 0, -1)]
    return [path for path in paths if os.path.exists(path)][:1]


@functools.lru_cache(maxsize=None)
def definitions(crate, file, names):
    """Returns what `Rattle.CRATE.specs.FILE.{NAMES}` of a crate of this repository is, as a list; a fault if there is no such thing."""
    first, *parts = file.split(".")
    if first not in ("declared", "contracts"):
        found = [Part(path, "", "definitions") for path in first_of(crate, "specs", [first, *parts], ".antt")]
    else:
        paths = first_of(crate, "src", parts, ".rt") or sorted({path for part in parts for path in files_with(crate, part)})
        declared = [(path, name) for path in paths for name, _ in blocks_in(path) if name in parts or name in names]
        found = [Part(*pair, "declaration") for pair in dict.fromkeys(declared or [(path, "") for path in paths])]
    if not found and crate in repository.crates():
        raise Fault(f"Rattle.{crate}.specs.{file} is imported, and is in no file")
    return found


def ghost_imports_in(text):
    """Returns what a text imports from specs, as pairs of a name and a part; a name that the text calls in full is empty."""
    text, found = one_a_line(text), []
    for crate, file, several, alias in GHOST_IMPORT.findall(text):
        for name in listed(several, alias or file.split(".")[-1]):
            found += [(name, part) for part in definitions(crate, file, (name,))]
    rest = GHOST_IMPORT.sub("", text)
    return found + [("", part) for crate, file in GHOST_PATH.findall(rest) for part in definitions(crate, file, ())]


def paths_in(text):
    return [part for crate, several, single in PATH.findall(text) for _, part in interfaces(crate, listed(several, single))]


@functools.lru_cache(maxsize=None)
def imports_of(path):
    text, found = text_of(path), []
    for first, several, single in IMPORT.findall(text):
        crate = path.split("/")[1] if first in ("crate", "super", "self") else first
        found += interfaces(crate, listed(several, single))
    return ghost_imports_in(text) + found


def declared_in(part):
    """Returns what a part of a file of code declares, without private fields if it is an interface."""
    texts = [text for name, text in blocks_in(part.path) if part.name in (name, "")]
    is_open = part.kind == "declaration"
    return [text if is_open or not STRUCT.match(text) else PRIVATE_FIELD.sub("", text) for text in texts]


def text_of_part(part):
    return text_of(part.path) if part.kind == "definitions" else "\n".join(declared_in(part))


@functools.lru_cache(maxsize=None)
def parts_named_in(part):
    """Returns what a part of a file names, in lower crates and in its own."""
    if part.kind == "definitions":
        return [named for _, named in ghost_imports_in(text_of(part.path))]
    texts = declared_in(part._replace(kind="interface"))
    if part.kind == "interface":
        functions = [item for item in items_of(part.crate, part.path) if isinstance(item, Function) and item.is_declared_public]
        texts += [function.head for function in functions if part.name == (function.owner or function.name)]
    text = "\n".join(texts)
    names = set(re.findall(r"\w+", text))
    # (a name with a sign in it, such as that of an operator, counts as used)
    return paths_in(text) + [named for name, named in imports_of(part.path) if name in names or not name.isidentifier()]


def definitions_seen(crate):
    """Returns the parts of files of lower crates that a crate can see and that define or declare something, in a fixed order."""
    texts = [text_of(path) for path in crate.sources()]
    left = [part for text in texts for part in [*(named for _, named in ghost_imports_in(text)), *paths_in(text)]]
    found = set()
    while left:
        part = left.pop()
        if part.crate != crate.name and part not in found:
            found.add(part)
            left += parts_named_in(part)
    return sorted(part for part in found if text_of_part(part))
