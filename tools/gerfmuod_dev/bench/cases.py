"""What is measured: for each measurement its cases, and the programs that are compared on them."""

from ..repository import TOP
from . import inputs, preloaded, processes
from .dag import dag
from .measuring import Candidate, Case, Kernel, by_workers, compare, measure

TP, SAMPLES = f"{TOP}/bin/tp", f"{TOP}/bin/samples"
HEAT, PRODUCT, PATTERNS, POOL = ([SAMPLES, name] for name in ("heat", "product", "patterns", "pool"))
ARCHIVE = f"{TOP}/lib/libgerfmuod.a"
# the measurements of the table of README, which are one series
FRONT = ["run", "body", "rod"]
# what each measurement measures
PROGRAMS = {
    "sim": [TP], "audit": [TP], "run": [TP, SAMPLES], "patterns": [SAMPLES], "rod": [SAMPLES], "body": [SAMPLES],
    "product": [SAMPLES], "library": [ARCHIVE], "dag": [ARCHIVE], "processes": [ARCHIVE],
    "preloaded": [ARCHIVE],
}

TASKS = {"product:64:4:0": 4_096, "wavefront:64:64:0": 4_096, "reduce:1024:0": 2_047, "product:64:1:0": 262_144}
PLACES = [(1, 1), (1, 2), (1, 4), (2, 1), (2, 2), (4, 1), (4, 4), (8, 8)]
ROD_PLACES = [(1, 1), (1, 2), (1, 4), (2, 2), (4, 1)]
PRODUCT_PLACES = [(1, 1), (1, 2), (1, 4), (2, 2)]
RODS = [(640_000, 10_000, 100), (640_000, 1_000, 100), (64_000, 100, 100)]
BODY_CELLS, BODY_STEPS = 120_000, 100
BODIES = [100, 200, 500, 800, 1_000, 1_500, 2_000, 4_000, 10_000]
LIBRARY_STEPS = 999_999
# the lines of texts, the quick form's first
SIZES = [200_000, 1_000_000]
# and if outputs are compared alone
FEW_LINES = 20_000
GRID_WIDTH, GRID_STEPS = 16, 100
GRID_TASKS = GRID_WIDTH * GRID_STEPS
GRID_PLACES = [(1, 1), (1, 4), (2, 2), (4, 1)]
PATTERNS_OF_TASKS = [
    "trivial", "no_comm", "stencil", "stencil_periodic", "dom", "tree", "fft", "nearest", "spread", "random_nearest",
    "all_to_all",
]
QUICK_PATTERNS = ["stencil", "spread"]
# the options of those patterns that have some
PATTERN_OPTIONS = {"nearest": ["--radius", "2"], "spread": ["--seed", "0"], "random_nearest": ["--radius", "2", "--seed", "0"]}
# iterations of the kernel in a task, and which of these sizes one worker has, and four workers
ITERATIONS = [50 * 2**power for power in range(11)]
ALONE, TOGETHER = ITERATIONS[:8], ITERATIONS[3:]
# how many the one task has by which an iteration is timed: at least 100 times as long as all else in its run
KERNEL_ITERATIONS = 5_000_000
# how often that is timed before the first case
KERNEL_ROUNDS = 10


def there(*candidates):
    """Returns those whose program could be compiled."""
    return [candidate for candidate in candidates if candidate.command[0]]


def chosen(bench, *names):
    return bench.only in " ".join(names)


def fits(pool, place):
    """Whether a pool can run there: the last one has too many events at two nodes and more."""
    return pool != "product:64:1:0" or place[0] == 1


def texts(bench, measurement, kind, lines, write):
    """`tp sim` or `tp audit` on a text, compared with the hand-written core with each kind of map."""
    name = f"{kind}, {lines:,} lines"
    if not chosen(bench, name):
        return []
    path = bench.file(f"{measurement}-{kind}-{lines}".replace(" ", "-"), write)
    with open(path, encoding="ascii") as text:
        count = sum(1 for _ in text)
    hashed = bench.peers.rust("texts", "texts.rs")
    ordered = bench.peers.rust("texts_sorted", "texts.rs", "--cfg", "sorted")
    peers = [Candidate("core with a HashMap", [hashed, measurement]), Candidate("core with a BTreeMap", [ordered, measurement])]
    case = Case(measurement, name, "line", count, path)
    return measure(bench, case, there(Candidate("tp", [TP, measurement]), *peers))


def sim(bench):
    for lines in SIZES[: 1 if bench.is_quick else 2] if bench.rounds else [FEW_LINES]:
        yield from texts(bench, "sim", "steps of tasks", lines, lambda out: inputs.write_task_steps(out, lines))
        yield from texts(bench, "sim", "all steps", lines, lambda out: inputs.write_all_steps(out, lines, False))


def audit(bench):
    for lines in SIZES[: 1 if bench.is_quick else 2] if bench.rounds else [FEW_LINES]:
        yield from texts(bench, "audit", "all steps", lines, lambda out: inputs.write_all_steps(out, lines, True))


def run(bench):
    """The pools of `tp run`: timed are the runs of `samples pool`, which calls the same function; instructions are those of `tp run`."""
    peers = bench.peers
    for pool, tasks in TASKS.items():
        places = [(1, 1), (2, 2), (8, 8)] if bench.is_quick else PLACES
        for place in (place for place in places if fits(pool, place) and chosen(bench, pool)):
            candidates = there(
                *by_workers("tp", [*POOL, pool], [place], [TP, "run", pool]),
                *by_workers("runtime by hand", [peers.rust("runtime", "runtime/main.rs"), pool], [place]),
                *by_workers("oneTBB flow graph", [peers.flow_graph("flow_graph_pools"), pool], [place]),
                *by_workers("OpenMP tasks", [peers.depend("depend_pools"), pool], [place]),
            )
            if place == (1, 1):
                plain = peers.rust("plain_pools", "plain_pools.rs")
                candidates += there(Candidate("one after the other", [plain, pool]))
            yield from measure(bench, Case("run", pool, "task", tasks), candidates)


def grid_programs(bench, arguments, places):
    peers, shared = bench.peers, [place for place in places if place[0] == 1]
    return there(
        *by_workers("patterns", [*PATTERNS, *arguments], places),
        *by_workers("runtime by hand", [peers.rust("runtime", "runtime/main.rs"), *arguments], places),
        *by_workers("oneTBB flow graph", [peers.flow_graph("flow_graph_patterns"), *arguments], shared),
        *by_workers("OpenMP tasks", [peers.depend("depend_patterns"), *arguments], shared),
        *by_workers("threads and a barrier", [peers.rust("barrier_patterns", "barrier_patterns.rs"), *arguments], shared),
    )


def kernel_of(bench):
    candidates = grid_programs(bench, ["no_comm", "1", "1", str(KERNEL_ITERATIONS)], GRID_PLACES[:1])
    case = Case("patterns", f"one task, {KERNEL_ITERATIONS:,} iterations", "task", 1)
    compare(case, candidates)
    kernel = Kernel(case, candidates, KERNEL_ITERATIONS, {})
    for _ in range(KERNEL_ROUNDS if bench.rounds else 0):
        kernel.measure(bench)
    return kernel


def grid(bench, pattern, iterations, places, kernel):
    case = Case("patterns", f"{pattern}, {iterations:,} iterations", "task", GRID_TASKS)
    arguments = [pattern, str(GRID_WIDTH), str(GRID_STEPS), str(iterations), *PATTERN_OPTIONS.get(pattern, [])]
    return measure(bench, case, grid_programs(bench, arguments, places), kernel)


def grids(bench):
    """`patterns` on grids of Task Bench, with tasks of many sizes."""
    bench = bench._replace(counts=False)
    names = [name for name in (QUICK_PATTERNS if bench.is_quick else PATTERNS_OF_TASKS) if chosen(bench, name)]
    kernel = kernel_of(bench) if names else None
    for name in names:
        for iterations in ITERATIONS[::2] if bench.is_quick else ITERATIONS:
            places = [place for place in GRID_PLACES if iterations in (ALONE if place == (1, 1) else TOGETHER)]
            yield from grid(bench, name, iterations, places, kernel)


def rod_peers(bench, arguments, places):
    return [
        *by_workers("oneTBB flow graph", [bench.peers.flow_graph("flow_graph_rod"), *arguments], places),
        *by_workers("OpenMP tasks", [bench.peers.depend("depend_rod"), *arguments], places),
    ]


def rod(bench):
    loop = bench.peers.rust("rod", "rod.rs")
    for cells, block, steps in RODS[-1:] if bench.is_quick else RODS:
        name = f"{cells:,} cells in blocks of {block:,}, {steps} steps"
        if not chosen(bench, name):
            continue
        path = bench.file(f"cells-{cells}", lambda out, cells=cells: inputs.write_cells(out, cells))
        arguments = [str(steps), str(block)]
        candidates = [*by_workers("heat", [*HEAT, *arguments], ROD_PLACES), Candidate("plain loop", [loop, *arguments])]
        candidates += by_workers("threads and a barrier", [loop, *arguments, "--threads"], ROD_PLACES)
        candidates += rod_peers(bench, arguments, ROD_PLACES)
        yield from measure(bench, Case("rod", name, "cell", cells, path), there(*candidates))


def body(bench):
    path = bench.file(f"cells-{BODY_CELLS}", lambda out: inputs.write_cells(out, BODY_CELLS))
    for block in BODIES[::2] if bench.is_quick else BODIES:
        arguments = [str(BODY_STEPS), str(block)]
        name = f"blocks of {block:,}, {BODY_STEPS} steps"
        if chosen(bench, name):
            candidates = by_workers("heat", [*HEAT, *arguments], GRID_PLACES) + rod_peers(bench, arguments, GRID_PLACES[:2])
            case = Case("body", name, "body", -(-BODY_CELLS // block) * BODY_STEPS, path)
            yield from measure(bench._replace(counts=False), case, there(*candidates))


def product(bench):
    loops = bench.peers.rust("product", "product.rs")
    for order, side in [(64, 16)] if bench.is_quick else [(64, 16), (512, 64)]:
        name = f"order {order}, tiles of {side}"
        if chosen(bench, name):
            path = bench.file(f"matrices-{order}", lambda out, order=order: inputs.write_matrices(out, order))
            candidates = by_workers("product", [*PRODUCT, str(side)], PRODUCT_PLACES)
            case = Case("product", name, "multiplication", order**3, path)
            yield from measure(bench, case, there(*candidates, Candidate("three loops", [loops])))


def library(bench):
    for kind in ("tasks", "messages"):
        for steps in (0, LIBRARY_STEPS) if chosen(bench, f"steps of {kind}") else ():
            arguments = [kind, str(steps)]
            candidates = there(
                Candidate("library from C", [bench.peers.over_library("library_steps"), *arguments]),
                Candidate("core with a HashMap", [bench.peers.rust("core_steps", "core_steps.rs"), *arguments]),
            )
            yield from measure(bench, Case("library", f"{steps:,} steps of {kind}", "step", steps), candidates)


MEASUREMENTS = dict(
    sim=sim, audit=audit, run=run, patterns=grids, rod=rod, body=body, product=product, library=library,
    dag=dag, processes=processes.measure, preloaded=preloaded.measure,
)
