"""Counts the lines of crates/, by crate and by kind, and compares the repository with its budget.

The kinds are: code (src/), tests (the crates test_*, and src/tests), definitions (specs/), lemmas (files of proofs/), answers (the explicit
answers and invariants in the folders of functions), mutants, and data that programs read or are compared with. Comments and empty lines
count. Prints a line for each crate, the sums, and for each limit of the budget what there is; the status is 1 if there is more of one.
"""
import glob
import re

from . import repository
from .repository import text_of

# for each kind the paths of its files in their crate; the first that fits
KINDS = {
    "code": r"src/(?!tests).*\.rt$",
    "tests": r"src/.*\.rt$",
    "definitions": r"specs/.*\.antt$",
    "lemmas": r"proofs/(?!(?:.*/)?(?:Answers|Invariants)\.antt$).*\.antt$",
    "answers": r"proofs/.*\.antt$",
    "mutants": r"mutants$|must-fail/",
    "data": r"data/|(?:stdout|stdin|args|status)$",
}
GENERATED = re.compile(r"<!-- bench \w+ -->\n.*?<!-- end of bench -->\n", re.S)
ROW = "{:<14}" + "{:>13,}" * (len(KINDS) + 1)


def lines_of(crate):
    counts = dict.fromkeys(KINDS, 0)
    for path in repository.files_in(f"crates/{crate}"):
        if kind := next((kind for kind, pattern in KINDS.items() if re.match(pattern, path.split("/", 2)[2])), None):
            is_test = crate.startswith("test_") and kind not in ("mutants", "data")
            counts["tests" if is_test else kind] += text_of(path).count("\n")
    return counts


def lines_in(*patterns):
    """Returns the number of lines of files, without the tables that `tools/dev bench` writes."""
    paths = [path for pattern in patterns for path in glob.glob(pattern, recursive=True)]
    return sum(GENERATED.sub("", text_of(path)).count("\n") for path in paths)


def run(_):
    rows = {name: lines_of(name) for name in repository.crates()}
    crates = len(rows)
    rows["all"] = {kind: sum(counts[kind] for counts in rows.values()) for kind in KINDS}
    print(f"{'crate':<14}" + "".join(f"{kind:>13}" for kind in (*KINDS, "all")))
    for name, counts in rows.items():
        lines = sum(counts.values())
        print(ROW.format(name, *counts.values(), lines))
    proved = lines - rows["all"]["mutants"] - rows["all"]["data"]
    print(f"{crates} crates: {lines:,} lines, {proved:,} of them code, tests, definitions and proofs\n\nbudget:")
    budget = (
        ("crates", crates, 31), ("lines of crates/", lines, 100_000),
        ("lines of Python", lines_in("tools/dev", "tools/**/*.py"), 7_500),
        ("lines of documents", lines_in("*.md", "bench/README.md", "docs/**/*.md"), 4_000),
    )
    for name, count, limit in budget:
        print(f"{count:9,} of at most {limit:7,} {name}{'' if count <= limit else f': {count - limit:,} too many'}")
    return int(any(count > limit for _, count, limit in budget))
