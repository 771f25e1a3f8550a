"""The tables in docs/PERFORMANCE.md, docs/measurements/details.md and README.md, between marks."""
import re

from .. import running
from ..repository import TOP, text_of
from . import figures, tables
from .cases import FRONT, MEASUREMENTS
from .measuring import TIMED
from .rows import kept, origins
from .soundness import impossible, missing

DETAILS = "docs/measurements/details.md"
PAGES = "docs/PERFORMANCE.md", DETAILS, "README.md"
# tables of details.md, each with its measurement
MORE = {"more": ("run", tables.more_of_pools), "kernels": ("patterns", tables.kernels)}
BLOCK = re.compile(r"(<!-- bench (\w+) -->\n).*?(<!-- end of bench -->\n)", re.S)


def refusal_of(measurements, folder):
    """Returns what a page says instead of a table of no rows, of several series, or of marked rows outside of docs/measurements."""
    command, known = f"tools/dev bench {' '.join(measurements)} --full --write", origins()
    if not all(map(kept, measurements)):
        return f"Not measured: `{command}` does it."
    found = [known[name] for name in measurements if name in known]
    if folder and any(origin.marked for origin in found):
        return f"Measured next to other programs, so there is no table: `{command}` at rest."
    if len({(origin.date, origin.commit) for origin in found}) > 1:
        return f"Not measured in one series: `{command}` does it."
    return ""


def block(name, folder):
    """Returns what is between the marks of a measurement, or of the table of all of them; its rows are in a folder next to the page."""
    if name == "origins":
        known = origins()
        return tables.of_origins([known[name] for name in MEASUREMENTS if name in known]) if known else "Nothing is stored yet."
    measurement, table_of = MORE.get(name, (name, tables.TABLES.get(name)))
    if refusal := refusal_of(FRONT if name == "front" else [measurement], folder):
        return refusal
    if name == "front":
        return tables.front(*map(kept, FRONT))
    pictures = "figures/" if folder else "../figures/"
    plots = [f"![{figures.PLOTS[plot][2]}]({pictures}{plot}.svg)" for plot in figures.of(name)]
    return "\n\n".join([table_of(kept(measurement)), *plots, f"All rows: [{measurement}.csv]({folder}{measurement}.csv)."])


def blocks(page):
    for found in BLOCK.finditer(text_of(f"{TOP}/{page}")):
        yield found[2], found[0], f"{found[1]}\n{block(found[2], '' if page == DETAILS else 'measurements/')}\n\n{found[3]}"


def write():
    for page in PAGES:
        text = text_of(f"{TOP}/{page}")
        for _, old, new in blocks(page):
            text = text.replace(old, new)
        running.write(f"{TOP}/{page}", text)


def check(tally):
    known = origins()
    for name in [*TIMED, "processes", "preloaded"]:
        reasons = impossible(name, kept(name))
        reasons += list(missing(kept(name))) if name == "patterns" and name in known and known[name].form == "full" else []
        tally.judge(not reasons, f"{name}.csv: {'; '.join(reasons)}")
    for name, origin in known.items():
        tally.judge(not origin.marked, f"{name}.csv: its rows are marked, so pages have no table of them: {origin.marked}")
    names = [name for page in PAGES for name, _, _ in blocks(page)]
    for name in ["origins", "front", *MORE, *MEASUREMENTS]:
        tally.judge(names.count(name) == 1, f"{' and '.join(PAGES)} have {names.count(name)} blocks for {name}")
    for page in PAGES:
        for name, old, new in blocks(page):
            tally.judge(old == new, f"{page}: the tables of {name} are not those of the stored rows: tools/dev bench --draw")
