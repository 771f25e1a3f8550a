"""The repository: its folder, the crates of crates.txt, and how many processes may run at the same time."""
import hashlib
import os
import re
import shutil

TOP = os.path.dirname(os.path.dirname(os.path.dirname(os.path.realpath(__file__))))
# KB that a check of the prover needs, and that an unproved build of the whole program needs, with a margin
MEMORY_OF_A_CHECK = 4_000_000
MEMORY_OF_A_TRIAL = 2_500_000
# the folders of a crate that have its code, definitions and proofs
SOURCES = ("src", "specs", "proofs")
# what is built of a crate in its folder out/, and where that is copied
BUILT = {name: (name, f"bin/{name}") for name in ("tp", "samples", "chain", "detector", "prefix")}
BUILT["gerfmuod"] = "libgerfmuod.a", "lib/proved/libgerfmuod.a"
# the file with the version of the library and of the programs, from which all takes it that is generated
VERSION = "crates/gerfmuod/src/exports.rt"


def text_of(path, otherwise=None):
    """Returns the text of a file; if it does not exist, the other text, if one is given."""
    if otherwise is not None and not os.path.exists(path):
        return otherwise
    with open(path, encoding="utf-8") as text:
        return text.read()


def figure(name):
    return f"{TOP}/docs/figures/{name}.svg"


def files_in(folder):
    return sorted(f"{path}/{name}" for path, _, names in os.walk(folder) for name in names)


class Crate:
    def __init__(self, name, below):
        self.name, self.below, self.is_program = name, below, os.path.exists(f"{TOP}/crates/{name}/src/main.rt")

    def sources(self):
        files = [path for part in SOURCES for path in files_in(f"{TOP}/crates/{self.name}/{part}")]
        return [path[len(TOP) + 1:] for path in files if path.endswith((".rt", ".antt"))]


def crates(names=None):
    """Returns these crates, or all by default, and each crate below them, by name and the lowest first."""
    rows = dict(re.findall(r"^([a-z]\w*)[^:\n]*:(.*)", text_of(f"{TOP}/crates.txt"), re.M))
    below = {name: [lower for lower in needs.split() if lower in rows] for name, needs in rows.items()}
    found, left = set(), list(below if names is None else names)
    while left:
        name = left.pop()
        left += below[name] if name not in found else []
        found.add(name)
    return {name: Crate(name, needs) for name, needs in below.items() if name in found}


def digest(names):
    result = hashlib.sha256()
    for crate in crates(names).values():
        for path in crate.sources():
            result.update(f"{path}\n{text_of(f'{TOP}/{path}')}".encode())
    return result.hexdigest()


def take(crate, folder="."):
    """Copies what was built of a crate, newer than the sources, for make; next to it is written a digest of the sources."""
    name, path = BUILT[crate]
    os.makedirs(os.path.dirname(path), exist_ok=True)
    shutil.copy(f"{folder}/crates/{crate}/out/{name}", path)
    with open(f"{path}.sources", "w", encoding="utf-8") as file:
        file.write(digest([crate]))


def reason_not_built(crate):
    """Returns an empty text if what is built of a crate is there and of these sources, and else why it cannot be used."""
    path = f"{TOP}/{BUILT[crate][1]}"
    if not os.path.exists(path):
        return f"{BUILT[crate][1]} is not there"
    is_current = text_of(f"{path}.sources", "") == digest([crate])
    return "" if is_current else f"{BUILT[crate][1]} was built from other sources"


def groups():
    """Returns the groups of crates.txt in order: the comment above each, and the names of its crates."""
    parts = re.findall(r"^# (.*)\n((?:[a-z]\w*[^:\n]*:.*\n?)+)", text_of(f"{TOP}/crates.txt"), re.M)
    return [(title, re.findall(r"^(\w+)", rows, re.M)) for title, rows in parts]


def version_number():
    """Returns 10,000 x major + 100 x minor + patch."""
    return int(re.search(r"const VERSION: u32 = (\d+);", text_of(f"{TOP}/{VERSION}"))[1])


def version():
    """Returns the version as a text, such as 0.1.0."""
    return ".".join(str(version_number() // part % 100) for part in (10_000, 100, 1))


def processors():
    return len(os.sched_getaffinity(0))


def lanes(memory):
    """Returns how many processes may run at the same time: one for each processor, if each has this many KB of memory."""
    free = int(re.search(r"MemAvailable:\s+(\d+)", text_of("/proc/meminfo"))[1])
    return max(1, min(processors(), free // memory))
