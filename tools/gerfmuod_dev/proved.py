"""Checks that what documents cite is in the code: contracts, tests, mutants, and calls without memory. It is part of `tools/dev docs`.

- A path is `crate::Type::name`, `crate::name` or `crate::Type`; each path in README.md and docs/*.md names a call or a type.
- In docs/PROVED.md a sentence that begins with *By* cites paths: a name alone has the type, or the crate, of the path before it. The
  brackets after one or several name clauses that each of these has: (`refused`, `kept`), (one clause), (keeps) for what a type keeps,
  (requires `small`) for a precondition. A path after *private* is one that only its own crate can use; any other is public.
- After `test_whole` comes the name of a test of that crate, and after *Mutants: in* and a crate names of its mutants.
- The last section of docs/measurements/out-of-memory.md has each public call that can run out of memory, and no other: a call whose
  docstring, type or contract says so, and that returns a `Result` or a refusal.
"""
import glob
import re

from . import mutant_files, repository
from .contracts import Function, contracts_of, types_with_invariant
from .repository import text_of

PAGE, OUT_OF_MEMORY = "docs/PROVED.md", "docs/measurements/out-of-memory.md"
PATH = re.compile(r"`(\w+)::(\w+(?:::\w+)?)`")
EVIDENCE = re.compile(r"\bBy\s.*?(?=\n\n|\n *- |\n#|\Z)", re.S)
# within a sentence of evidence: a path, brackets, the word private, or the end of a part (`the trait T:` too)
PART = re.compile(r"`(?P<path>(?:\w+::){0,2}\w+)`|\((?P<brackets>[^()]*)\)|\b(?P<private>private)\b|(?P<end>;|\. |:\s)")
TEST = re.compile(r"\b(test_\w+)`?,? `([a-z]\w+_\w+)`")
MUTANTS = re.compile(r"\bMutants?(?::| in) .*?(?=\n\n|\n *- |\n#|\Z)", re.S)
SAYS_MEMORY = re.compile(r"\b(NoMemory|AllocError|AllocFailed|TextFault|\w*Fault>|no memory for)")
FALLIBLE = re.compile(r"->[^{]*(Result|Option<Refusal>)")
# calls of traits of the standard library are not looked for, but this one has a row
OF_STANDARD_TRAITS = {"tp_graph::Only::clone"}


def item_at(path):
    crate, _, rest = path.partition("::")
    functions, types = contracts_of(crate) if crate in repository.crates() else ({}, {})
    return functions.get(rest) or types.get(rest)


def citations_in(text):
    """Yields the citations of a sentence of evidence: a path, what the brackets behind it say, and whether it is private."""
    paths, is_private, folder = [], False, ""
    for part in [*PART.finditer(" ".join(text.split())), None]:
        if part and part["path"]:
            folder, _, name = part["path"].rpartition("::") if "::" in part["path"] else (folder, "", part["path"])
            paths.append((f"{folder}::{name}", is_private))
        elif part and part["private"]:
            is_private = True
        else:
            brackets = part and part["brackets"]
            yield from ((path, brackets or "", private) for path, private in paths)
            paths, is_private = [], is_private and brackets is not None


def faults_of(path, brackets, is_private):
    item = item_at(path)
    if item is None:
        return [f"{path} is not in the code"]
    is_function, kind = isinstance(item, Function), "requires" if re.search(r"\brequires\b|\basks for\b", brackets) else "ensures"
    known = item.names_of(kind) if is_function else item.ghost_items
    faults = [f"{path} is {'public' if item.is_public else 'private'}"] if is_private == item.is_public else []
    faults += [f"{path} has no clause {name}" for name in re.findall(r"`(\w+)`", brackets) if name not in known]
    if "one clause" in brackets and known != [""]:
        faults.append(f"{path} has these clauses: {', '.join(name or 'one without a name' for name in known) or 'none'}")
    if re.search(r"\bkeeps?\b", brackets) and "`" not in brackets:
        is_kept = not is_function and (item.name in types_with_invariant(path.split("::")[0]) or item.kind == "struct" and known)
        faults += [] if is_kept else [f"{path} has no invariant"]
    return faults


def check_contracts(tally):
    """Judges each citation of PROVED.md, and each path outside of them and in the other documents, where `gerfmuod::` is of C++."""
    cited = [citation for sentence in EVIDENCE.findall(text_of(PAGE)) for citation in citations_in(sentence)]
    tally.judge(cited, f"{PAGE} cites no contract")
    for citation in cited:
        faults = faults_of(*citation)
        tally.judge(not faults, f"{PAGE}: {'; '.join(faults)}")
    for page in ["README.md", *sorted(glob.glob("docs/*.md"))]:
        for crate, rest in PATH.findall(text_of(page) if page != PAGE else EVIDENCE.sub("", text_of(page))):
            if crate in repository.crates() and (crate != "gerfmuod" or page == PAGE):
                tally.judge(item_at(f"{crate}::{rest}"), f"{page}: {crate}::{rest} is not in the code")
    print(f"{PAGE}: {len(cited)} citations of contracts")


def check_names(tally):
    """Judges whether each test that a document names is in its crate, and each mutant in the crate before it, or any after `below`."""
    for page in sorted(glob.glob("docs/**/*.md", recursive=True)):
        for crate, name in TEST.findall(" ".join(text_of(page).split())):
            is_here = any(function.name == name for function in contracts_of(crate)[0].values())
            tally.judge(is_here, f"{page}: {crate} has no test {name}")
        for sentence in MUTANTS.findall(text_of(page)):
            crates = []
            for word, name in re.findall(r"\b(\w+)\b|`(\w+)`", sentence):
                crates = [word] if word in repository.crates() else repository.crates() if word == "below" else crates
                if name:
                    is_here = any(name in mutant_files.mutants_of(crate) for crate in crates)
                    tally.judge(is_here, f"{page}: no mutant {name} in {' '.join(crates)}")


def calls_without_memory():
    libraries = [crate.name for crate in repository.crates().values() if not crate.name.startswith("test_") and not crate.is_program]
    functions = [(name, function) for name in libraries for function in contracts_of(name)[0].values() if function.is_declared_public]
    return OF_STANDARD_TRAITS.union(
        f"{name}::{function.path}" for name, function in functions
        if FALLIBLE.search(function.head) and SAYS_MEMORY.search(function.docstring + function.head)
    )


def check_memory(tally):
    section = text_of(OUT_OF_MEMORY).partition("\n## Which test covers which call\n")[2]
    expected, listed = calls_without_memory(), set(re.findall(r"`((?:tp_|pool_|gerfmuod)\w*?::[\w:]+)`", section))
    tally.passed += len(expected & listed)
    for call in sorted(expected ^ listed):
        tally.fails(f"{OUT_OF_MEMORY} lacks {call}" if call in expected else f"{OUT_OF_MEMORY} has {call}, which cannot run out")
    print(f"{OUT_OF_MEMORY}: {len(expected & listed)} calls as in the code")


def check(tally):
    check_contracts(tally)
    check_names(tally)
    check_memory(tally)
