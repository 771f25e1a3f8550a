"""Creates a folder with a pool of your own, which runs before anything in it is proved.

FOLDER gets the crate NAME, a program that runs a graph by threads, as docs/RUNNING-A-POOL.md describes, and copies of the crates below it
without their mutants, with what `make` proved of them. If FOLDER has pools already, NAME is another one, and these copies are renewed.
Prints what to type next. The status is 1 if nothing was created, because of the folder or the name.
"""
import os
import re
import shutil
import subprocess

from . import repository, running, visible
from .build import NOT_COPIED, keep
from .library import kit
from .repository import text_of

# how the crates.txt of such a folder begins
HEADER = "# NAME: the crates that it is built on\n"
# words of the language, which name no crate
RESERVED = text_of(f"{repository.TOP}/tools/data/reserved-words").split()
# for each kind the crate that it copies; of some only these parts, next to a program, and the rest stays a crate below
KINDS = {"chain": "chain", "prefix": "prefix", "rod": "pool_blocks", "intervals": "pool_intervals"}
PARTS = dict(
    rod="src/heat.rt src/rod_mix.rt specs/Heats.antt specs/HeatLaws.antt proofs/Sweeps.antt proofs/RodCuts.antt proofs/heat proofs/rod_mix",
    intervals="src/matrix_chain.rt specs/MatrixChains.antt proofs/MatrixCosts.antt proofs/matrix_chain",
)


def lines_of_crates(folder="."):
    return {row[1]: row[0] for row in re.finditer(r"^([a-z]\w*)[^:\n]*:.*", text_of(f"{folder}/crates.txt", ""), re.M)}


def fault_of(folder, name):
    """Returns why such a pool cannot be created; an empty text if it can."""
    is_empty = not os.path.lexists(folder) or os.path.isdir(folder) and not os.listdir(folder)
    if not is_empty and not text_of(f"{folder}/crates.txt", "").startswith(HEADER):
        return f"{folder} exists, and is neither an empty folder nor one of pools"
    if name in RESERVED or not re.fullmatch(r"[a-z][a-z0-9_]*", name):
        return f"{name} is no name of a crate: lowercase letters, digits and _, a letter first, and no word of the language"
    is_taken = name in (*lines_of_crates(), *lines_of_crates(folder)) or os.path.exists(f"{kit()}/rlibs/{name}.rlib")
    return f"{name} is the name of a crate of this repository, of the folder or of the toolchain" if is_taken else ""


def one_a_module(group):
    """Returns a grouped import as one import for each module."""
    modules = {}
    for path in visible.paths_of(group[2], group[3]):
        modules.setdefault(path.rpartition(".")[0], []).append(path.rpartition(".")[2])
    return "\n".join(f"{group[1]}{path}.{{{', '.join(names)}}}{group[4]}" for path, names in modules.items())


def rename(folder, kind, new):
    """Gives the copied modules the new name of their crate, in each file that names it, and templates the names of their copies."""
    old, copied = KINDS[kind], r"\."
    if kind in PARTS:
        copied = rf"\.(?:specs|proofs)\.(?:declared\.)?(?:{'|'.join(re.findall('/([A-Za-z_]+)', PARTS[kind]))})\b"
    for path in repository.files_in(folder):
        text = text_of(path)
        if kind in PARTS:
            # what a part takes from the root of its crate, and from modules that stay there
            text = visible.GROUP.sub(lambda group: one_a_module(group) if f"Rattle.{old}." in f"{group[2]}." else group[0], text)
            text = text.replace("use crate::{", f"use {old}::{{")
        text = re.sub(rf"\bRattle\.{old}(?={copied})", f"Rattle.{new}", text).replace(f'"{old}"', f'"{new}"')
        os.remove(path)
        running.write(re.sub(r"\.text$", "", path), text)


def create(folder, name, kind):
    source, lines, theirs = KINDS[kind], lines_of_crates(), lines_of_crates(folder)
    line = f"{name} may_wait=2: tp_base tp_graph {source} tp_work" if kind in PARTS else name + lines[source][len(source):]
    lower = repository.crates([crate for crate in (*line.split(":")[1].split(), *theirs) if crate in lines])
    for crate in lower:
        shutil.rmtree(f"{folder}/crates/{crate}", ignore_errors=True)
        shutil.copytree(f"crates/{crate}", f"{folder}/crates/{crate}", ignore=NOT_COPIED)
    target, copied = f"{folder}/crates/{name}", f"crates/{source}"
    shutil.copytree(f"tools/data/{kind}_run" if kind in PARTS else copied, target, ignore=NOT_COPIED)
    for part in PARTS.get(kind, "").split():
        (shutil.copytree if os.path.isdir(f"{copied}/{part}") else shutil.copy2)(f"{copied}/{part}", f"{target}/{part}")
    rename(f"{folder}/crates/{name}", kind, name)
    own = "\n".join([*(row for crate, row in theirs.items() if crate not in lines), line])
    running.write(f"{folder}/crates.txt", HEADER + "".join(f"{lines[crate]}\n" for crate in lower) + f"\n{own}\n")
    for file, original in ("HANDLES", "HANDLES"), (".gitignore", ".gitignore"), ("README.md", "tools/data/pools.text"):
        if not os.path.exists(f"{folder}/{file}"):
            shutil.copy2(original, f"{folder}/{file}")
    subprocess.run(["rt", "fmt"], cwd=f"{folder}/crates/{name}", stdout=subprocess.DEVNULL, check=True)
    keep(lower, folder)
    return len(lower)


def arguments(parser):
    parser.add_argument("folder", metavar="FOLDER", type=os.path.abspath, help="the folder: new, empty, or with pools")
    parser.add_argument("name", metavar="NAME", help="the name of the new crate")
    parser.add_argument("--like", choices=sorted(KINDS), default="chain", help="what the crate is a copy of (chain by default)")


def run(options):
    if fault := fault_of(options.folder, options.name):
        print(f"{fault}: nothing was created")
        return 1
    count = create(options.folder, options.name, options.like)
    print(f"Created {options.folder}: the crate {options.name}, and {count} crates that it is built on. To run it, unproved:")
    print(f"  cd {options.folder}/crates/{options.name} && rt try")
    print(f"What comes next: {os.path.abspath('docs/RUNNING-A-POOL.md')}, from \"Run it\" on.")
    return 0
