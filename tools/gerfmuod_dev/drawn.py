"""Draws the pictures of runs in docs/figures: of stored traces, with bin/samples, and of two runs of Cholesky.

`tools/dev try samples` compares the pictures of traces with what the program draws unproved. Cholesky (capi/examples/cholesky.c;
capi/mpi/graph_cholesky.c over Open MPI) runs with lib/libgerfmuod.a, over OpenBLAS if that is installed; the times of the fastest of a few
runs are stored and drawn. Prints a line for each picture. The status is 1 if one could not be drawn; without a library that was built from
these sources, or without Open MPI, a picture of Cholesky is left as it is.
"""
import shutil

from . import dag_programs, library, mpi_graphs, plots, running
from .repository import figure, text_of
from .tries import PICTURES

# of the pictures of Cholesky the orders of the matrices, that of their tiles, the number of threads or processes, and that of runs
ON_THREADS, OVER_MPI, TILE, THREADS, RUNS = 2048, 1536, 256, 4, 9


def draw_trace(samples, name):
    trace, arguments_of, status = PICTURES[name]
    result = running.run([samples, "draw", *arguments_of], trace)
    if result.status == status:
        running.write(figure(name), result.out)
    return result.status == status


def draw_cholesky(name, command, file, rows_of=str):
    """Stores and draws the fastest of a few runs, each of which writes a file, of whose text a function returns the rows."""
    environment = {**mpi_graphs.ENVIRONMENT, "GERFMUOD_ROWS": file}
    texts = [not running.run(command, env=environment).status and rows_of(text_of(file)) for _ in range(RUNS)]
    if all(texts):
        running.write(plots.RUNS[name], min(texts, key=lambda text: plots.plot_of_run(text)["elapsed"]))
    return all(texts) and plots.write([name]) == 0


def draw_threads(library_folder, folder):
    build, path, file = dag_programs.Build(library_folder, folder), f"{folder}/cholesky", f"{folder}/cholesky.json"
    is_built = any(dag_programs.succeeds(build.command(way, path)) for way in (dag_programs.CHOLESKY_OVER_BLAS, dag_programs.CHOLESKY))
    command = [path, "--profile", file, str(ON_THREADS), str(TILE), "1", str(THREADS)]
    return is_built and draw_cholesky("cholesky", command, file, lambda events: plots.rows_of_run(events, ON_THREADS // TILE))


def draw_processes(mpi, folder):
    command = mpi_graphs.command_of(mpi, THREADS, mpi_graphs.with_rows(mpi, folder), [str(OVER_MPI), str(TILE), "1"])
    return draw_cholesky("four-processes", command, f"{folder}/rows")


def draw(path, action, *arguments_of, missing=""):
    """Draws a picture for which something may be missing; returns whether it was drawn or left as it is, and prints that."""
    is_well = bool(missing) or action(*arguments_of)
    print(f"{path}: {f'left as it is: {missing}' if missing else 'drawn' if is_well else 'failed'}", flush=True)
    return is_well


def arguments(parser):
    running.program_argument(parser, "samples")
    parser.add_argument("--library", metavar="FOLDER", help="use libgerfmuod.a of this folder, whatever it was built from")


def run(options):
    running.require(options.samples)
    no_library, mpi = "" if options.library else library.reason_not_built(), mpi_graphs.MPIS[0]
    are_drawn = [draw(figure(name), draw_trace, options.samples, name) for name in PICTURES]
    are_drawn.append(draw(figure("cholesky"), draw_threads, options.library or "lib", options.temporary, missing=no_library))
    missing = no_library or f"{mpi.name} is not installed" * (not shutil.which(mpi.compiler))
    are_drawn.append(draw(figure("four-processes"), draw_processes, mpi, options.temporary, missing=missing))
    return 0 if all(are_drawn) else 1
