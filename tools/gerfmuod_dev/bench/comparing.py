"""Compares the programs of two folders, as of two checkouts, on some cases of `run`, `rod` and `patterns`."""
import os
import sys

from . import conditions, inputs, rows, tables
from .cases import GRID_STEPS, GRID_TASKS, GRID_WIDTH, RODS, TASKS, chosen, fits
from .measuring import Case, by_workers, measure

NAMES, PROGRAMS = ("old", "new"), ("bin/tp", "bin/samples")
PLACES, LOADS, ITERATIONS = [(1, 1), (1, 4), (2, 2), (4, 4), (8, 8)], [0, 4], 400
HEAD = ["Case", "nodes by workers", *(f"{name}, ms (quartiles)" for name in NAMES), "new by old", "instructions, new by old"]


def cases(bench):
    """Yields each case with the arguments of `samples`, and those of `tp`, if it has such a subcommand."""
    for pool, tasks in TASKS.items():
        yield Case("run", pool, "task", tasks), ["pool", pool], ["run", pool]
    cells, block, steps = RODS[-1]
    name, path = f"{cells:,} cells in blocks of {block:,}, {steps} steps", bench.file("cells", lambda out: inputs.write_cells(out, cells))
    yield Case("rod", name, "cell", cells, path), ["heat", str(steps), str(block)], None
    grid = ["patterns", "stencil", str(GRID_WIDTH), str(GRID_STEPS), str(ITERATIONS)]
    yield Case("patterns", f"stencil, {ITERATIONS:,} iterations", "task", GRID_TASKS), grid, None


def measured(bench, folders):
    """Yields the rows of each case: of the old and the new program at each place, which run in turns."""
    for case, command, whole in cases(bench):
        for place in (place for place in PLACES if fits(case.name, place) and chosen(bench, case.name)):
            both = [
                by_workers(name, [f"{folder}/bin/samples", *command], [place], whole and [f"{folder}/bin/tp", *whole])
                for name, folder in zip(NAMES, folders)
            ]
            yield from measure(bench, case, sum(both, []))


def line_of(old, new):
    ratio = f"{new.milliseconds / old.milliseconds:.2f}{f', {tables.NO_DIFFERENCE}' * tables.overlap(old, new)}"
    times = [tables.with_quartiles(row, "{:.2f}") for row in (old, new)]
    return [old.case, old.where, *times, ratio, tables.cell(tables.ratio(new.instructions, old.instructions), "{:.3f}")]


def compare(bench, folders, loads, is_anyway):
    missing = [f"{folder}/{path}" for folder in folders for path in PROGRAMS if not os.path.isfile(f"{folder}/{path}")]
    faults = [conditions.faults(conditions.load_average())]
    if missing or any(faults) and not is_anyway:
        sys.exit(f"nothing is measured: {f'missing: {missing}' if missing else faults[0]}")
    for load in loads:
        start, load_average = conditions.now(), conditions.load_average()
        if not (found := list(measured(bench._replace(load=load), folders))):
            sys.exit(f"no case has {bench.only!r} in its name")
        end, name = conditions.now(), f"next to {load} busy processes"
        origin = conditions.origin_of(name, "compare", found, end[0] - start[0], load_average, conditions.others(start, end))
        faults.append(conditions.faults(0, origin.others))
        table = tables.table(HEAD, [line_of(*pair) for pair in zip(found[::2], found[1::2])])
        parts = [f"## {name}", rows.text_of(found), table, tables.of_origins([origin]), faults[-1] or "At rest.", ""]
        print("\n\n".join(parts), flush=True)
    return 1 if any(faults) and not is_anyway else 0
