"""The tools of this repository. `tools/dev SUBCOMMAND --help` says what a subcommand prints, and its exit status.

They work on the repository that they are in, from whatever folder they are called. Unknown arguments end with status 2. The last line of
one that checks is `N passed, M failed, K skipped`; its status is 1 if one failed.
"""
import argparse
import os
import tempfile

from . import bench, build, capi, checks, contracts, dag_programs, docs, drawn, library, limits, lines
from . import mpi, mpi_check, mutants, new_pool, ompt, pages, plots, repository, soak, summary, tries
from .running import Tally
from .shipping import package

COMMANDS = {
    "build": build, "lib": library, "test": checks, "capi": capi, "dag": dag_programs, "mpi": mpi, "mpi-check": mpi_check,
    "ompt": ompt, "try": tries, "pages": pages, "mutants": mutants, "lines": lines, "docs": docs, "contracts": contracts, "draw": drawn,
    "plot": plots, "summary": summary, "new-pool": new_pool, "soak": soak, "limits": limits, "bench": bench, "package": package,
}


def described(text):
    """Returns the options of a parser that shows a module's description as it is written."""
    return {"description": text, "formatter_class": argparse.RawDescriptionHelpFormatter, "allow_abbrev": False}


def add(parser, commands, metavar):
    """Adds a parser for each of these commands, which are modules, or a group of them."""
    parsers = parser.add_subparsers(metavar=metavar, required=True)
    for name, module in commands.items():
        own = parsers.add_parser(name, help=module.__doc__.splitlines()[0], **described(module.__doc__))
        if hasattr(module, "arguments"):
            module.arguments(own)
        if hasattr(module, "LIMITS"):
            add(own, module.LIMITS, "NAME")
        else:
            own.set_defaults(run=module.run, parser=own)
    return parser


def parser_of_all():
    return add(argparse.ArgumentParser(prog="tools/dev", **described(__doc__)), COMMANDS, "SUBCOMMAND")


def main(arguments=None):
    options, unknown = parser_of_all().parse_known_args(arguments)
    options.subcommands, options.folder_of_call, options.tally = [*COMMANDS], os.getcwd(), Tally()
    if unknown:
        options.parser.error(f"unknown: {' '.join(unknown)}")
    os.chdir(repository.TOP)
    with tempfile.TemporaryDirectory() as options.temporary:
        status = options.run(options)
    return options.tally.end() if status is None else status
