"""Compares the documents with the code and with each other.

- each relative link of README.md, CONTRIBUTING.md, CHANGELOG.md, bench/README.md and docs leads to a file, and to a heading if it
  names one; each block of code is part of the file in a folder that the line above it names; in the guides each names one
- the rows `sources` of tools/data/statements.json: a page has a text, in which {} is what the line of sh behind it prints, which has to
  succeed. They compare constants and formulas, and find names of paths, commands, calls and refusals that are not there, long lines, and
  atomic operations: all shared state is behind locks. (The rows `built` are a part of `tools/dev package`)
- the table of docs/ARCHITECTURE.md has the groups of crates.txt, and the plots are drawn from what is stored (`tools/dev plot`)
- the contracts, the tests, the mutants and the calls that documents cite are in the code (proved.py)
"""
import glob
import json
import os
import re
from urllib.parse import unquote

from . import plots, proved, running
from .bench import figures
from .repository import text_of

GUIDE = "docs/RUNNING-A-POOL.md", "docs/PROVING-A-POOL.md", "docs/YOUR-BODIES.md"
OF_ITS_DAY = "CHANGELOG.md"
BLOCK = re.compile(r"(?:`([^`\n]+)`:\n\n)?```(\w+)\n(.*?\n)```\n", re.S)
CODE = re.compile(r"^ *```.*?^ *```[^\n]*$|`[^`\n]*`", re.S | re.M)
LINK = re.compile(r'\]\(<?([^()\s>]+)>?(?:\s+"[^"]*")?\)|^ *\[[^\]\n]+\]: *(\S+)|\b(?:src|srcset|href)="([^"]+)"', re.M)
URL = re.compile(r"[a-z][a-z0-9+.-]*:|//", re.I)


def documents():
    paths = [path for folder in ("docs", "docs/measurements") for path in glob.glob(f"{folder}/*.md")]
    return ["README.md", "CONTRIBUTING.md", "CHANGELOG.md", "bench/README.md", "capi/README.md", *sorted(paths)]


def headings_of(text):
    """Returns the names of a document's headings in links; a repeated one has a number appended."""
    names = []
    for heading in re.findall(r"^#+ +(.*?)[ #]*$", re.sub(r"^```.*?^```", "", text, flags=re.S | re.M), re.M):
        plain = re.sub(r"\[([^\]]*)\]\([^)]*\)", r"\1", heading).lower()
        names.append(re.sub(r"[^\w\- ]", "", plain).replace(" ", "-"))
    counts = [names[:place].count(name) for place, name in enumerate(names)]
    return {f"{name}-{count}" if count else name for name, count in zip(names, counts)}


def exists(path, link):
    file, _, heading = unquote(link).partition("#")
    target = os.path.join(os.path.dirname(path), file) if file else path
    is_here = os.path.exists(target)
    return is_here and (not heading or not target.endswith(".md") or heading in headings_of(text_of(target)))


def dead_links(path):
    links = dict.fromkeys("".join(groups) for groups in LINK.findall(CODE.sub("``", text_of(path))))
    return [link for link in links if not URL.match(link) and not exists(path, link)]


def unknown_blocks(text, is_guide=True):
    """Returns the first lines of the blocks of a page that are not in the files that it names; one of a guide has to name a file."""
    blocks = [block.groups() for block in BLOCK.finditer(text)]
    named = [(path, code) for path, kind, code in blocks if "/" in (path or "") or is_guide and (path or kind != "text")]
    return [code.split("\n")[0] for path, code in named if not (path and code in text_of(path, ""))]


def check_statements(tally, kind):
    """Judges the rows of a kind: a page, a text, a line of sh, and what has to be installed for that; the last two may be left out."""
    table = json.loads(text_of("tools/data/statements.json"))
    for page, text, *more in table[kind]:
        line, needed = (*more, "", "")[:2]
        if needed and not tally.has(needed, f"{page}: {text}"):
            continue
        result = running.run(["sh", "-ec", table["first"] + line])
        text = text.replace("{}", result.out.decode().strip())
        is_there = " ".join(text.split()) in " ".join(text_of(page).split())
        reason = f"{line}: {running.short(result.out)}, {result.description(2000)}"
        tally.judge(is_there and not result.status, f"{page}{'' if is_there else f' lacks {text!r}'}: {reason}")


def check_documents(tally):
    for path in documents():
        blocks = unknown_blocks(text_of(path), path in GUIDE)
        for fault, places in ("there is no", dead_links(path)), ("not in the code:", blocks):
            tally.judge(not places, f"{path}: {fault} {', '.join(map(str, places))}")
    print(f"{len(documents())} documents")


def run(options):
    tally = options.tally
    check_documents(tally)
    check_statements(tally, "sources")
    plots.check_map(tally)
    plots.check(tally, [name for name in plots.PLOTS if name not in figures.PLOTS])
    proved.check(tally)
