"""Writes a page for each crate to out/contracts: its public functions, each with its docstring and its contract.

The files have the layout of `rt fmt`, so the beginning of a line shows what the line begins. Of bodies only the places are read.
"""
import functools
import os
import re
from textwrap import dedent
from typing import NamedTuple

from . import repository, running
from .repository import text_of

VISIBLE = r"(pub(?:\([^)]*\))? )?"
FUNCTION = re.compile(rf'( *){VISIBLE}(?:const )?(?:unsafe )?(?:extern "C" )?fn (\w+)')
TYPE = re.compile(rf"{VISIBLE}(struct|enum|trait|type|const|static) (\w+)")
BLOCK = re.compile(rf"{VISIBLE}(?:unsafe )?(impl|trait)\b")
CLAUSE = re.compile(r"^ +(ensures|requires)\*?(?: (\w+))? \{", re.M)
GHOST_ITEM = re.compile(r"^    ghost (\w+): \{(.*?)\}(?: by .*)?[,;]$", re.M | re.S)
# a ghost item that states something; others are data
STATEMENT = re.compile(r"[≡≢≤<↔]|\b(?:Is|Are|Has|Keeps)[A-Z]")
INVARIANT = re.compile(r"^    ghost invariant = \{", re.M)
EXPORT = re.compile(r"^pub use ([^;]*);$", re.M)
DECLARED_IN_LIB = re.compile(r"^pub (?:const )?(?:fn|struct|enum|trait|type|const) (\w+)", re.M)


class Function(NamedTuple):
    """A function of a crate. `owner` is its type or trait, or empty; `head` is its text from its name to its body; its first line, with
    the docstring and attributes, and the lines of its body count from 0."""

    owner: str
    name: str
    file: str
    docstring: str
    head: str
    is_declared_public: bool
    is_public: bool
    first: int
    body: range

    @property
    def path(self):
        """Its path in its crate, as `Core::step`."""
        return f"{self.owner}::{self.name}" if self.owner else self.name

    def names_of(self, kind):
        """Returns the names of its clauses of a kind, `ensures` or `requires`; the name of an unnamed one is empty."""
        return [name for found, name in CLAUSE.findall(self.head) if found == kind]


class Type(NamedTuple):
    """A type, trait or constant of a crate, with the names of the ghost items that state something."""

    kind: str
    name: str
    is_public: bool
    ghost_items: tuple


def owner_of(line):
    plain, count = line.replace("->", ""), 1
    while count:
        plain, count = re.subn(r"<[^<>]*>", "", plain)
    parts = re.split(r"\bwhere\b|\{|:", plain)[0].replace("pub ", "").split()
    return parts[-1] if len(parts) > 1 else ""


def head_at(lines, place):
    """Returns the lines of a function from its name to its body, or to the semicolon that it has instead of one."""
    depth = 0
    for last in range(place, len(lines)):
        line = lines[last].split("//")[0].rstrip()
        depth += sum(map(line.count, "({")) - sum(map(line.count, ")}"))
        if depth == 1 and line.endswith("{") or depth == 0 and line.endswith((";", "{}")):
            return "\n".join(lines[place:last + 1])
    return "\n".join(lines[place:])


def block_at(lines, place):
    """Returns the lines of an item that begins at the left margin."""
    if lines[place].endswith((";", "}")):
        return lines[place]
    last = next((row for row in range(place, len(lines)) if lines[row].startswith(("}", ")"))), len(lines) - 1)
    return "\n".join(lines[place:last + 1])


def items_in(lines):
    """Gives the places of the lines that are no docstring, attribute or comment, each with the docstring and the attributes above."""
    docstring, attributes = "", ""
    for place, line in enumerate(lines):
        text = line.strip()
        if text.startswith("#["):
            attributes += f"{text}\n"
        elif text.startswith("///"):
            docstring += f"{text[3:].strip()}\n"
        elif not text.startswith("//"):
            yield place, docstring, attributes
            docstring, attributes = "", ""


@functools.lru_cache(maxsize=None)
def exported(crate):
    text = text_of(f"crates/{crate}/src/lib.rt", "")
    return {*DECLARED_IN_LIB.findall(text), *(name for path in EXPORT.findall(text) for name in re.findall(r"\w+", path))}


@functools.lru_cache(maxsize=None)
def items_of(crate, path):
    return tuple(read_items(text_of(path).split("\n"), path, exported(crate)))


def read_items(lines, path, public):
    owner, is_trait = "", False
    for place, docstring, attributes in items_in(lines):
        line = lines[place]
        function, declared, block = FUNCTION.match(line), TYPE.match(line), BLOCK.match(line)
        if declared:
            visible, kind, name = declared.groups()
            items = tuple(item for item, text in GHOST_ITEM.findall(block_at(lines, place)) if STATEMENT.search(text))
            yield Type(kind, name, visible == "pub " and name in public, items)
        if block and not line.endswith("}"):
            owner, is_trait = owner_of(line), block[2] == "trait"
        elif line.startswith("}"):
            owner, is_trait = "", False
        elif function and function[1] == ("    " if owner else ""):
            blanks, visible, name = function.groups()
            is_declared = visible == "pub " or is_trait
            is_public = is_declared and (owner or name) in public or "no_mangle" in attributes
            first, head = place - (docstring + attributes).count("\n"), head_at(lines, place)
            begin = place + head.count("\n") + 1
            end = next((row for row in range(begin, len(lines)) if lines[row] == f"{blanks}}}"), begin) if head.endswith("{") else begin
            yield Function(owner, name, path, docstring, head, is_declared, is_public, first, range(begin, end))


@functools.lru_cache(maxsize=None)
def contracts_of(crate):
    """Returns the functions and the types of a crate by their path in it; of functions of one path a public one."""
    paths = [path for path in repository.files_in(f"crates/{crate}/src") if path.endswith(".rt")]
    items = [item for path in paths for item in items_of(crate, path)]
    types = {item.name: item for item in reversed(items) if isinstance(item, Type)}
    functions = sorted((item for item in items if isinstance(item, Function)), key=lambda function: function.is_public)
    return {function.path: function for function in functions}, types


@functools.lru_cache(maxsize=None)
def types_with_invariant(crate):
    texts = [text_of(path) for path in repository.files_in(f"crates/{crate}/src") if path.endswith(".rt")]
    models = [found for text in texts for found in re.finditer(r"^impl\b.* Model for .*\n(?:[^}\n].*\n|\n)*", text, re.M)]
    return {owner_of(found[0].split("\n")[0]) for found in models if INVARIANT.search(found[0])}


def run(_):
    os.makedirs("out/contracts", exist_ok=True)
    for crate in repository.crates():
        own = [function for function in contracts_of(crate)[0].values() if function.is_public]
        parts = [f"\n## {it.path}\n\n{it.docstring}\n```rust\n{dedent(it.head).rstrip('{ ')}\n```\n" for it in own]
        running.write(f"out/contracts/{crate}.md", f"# {crate}\n{''.join(sorted(parts))}")
    return 0
