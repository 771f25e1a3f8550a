"""Tries the built programs at their limits.

Each of these needs `make` before, or the paths of programs that were built in another way.
"""
import inspect

from .. import running
from . import memory, strange, terminal, texts


class Limit:
    """A subcommand: a function that counts cases, the programs that it runs, and options: a number by default, and what it is."""

    def __init__(self, action, *programs, **options):
        self.action, self.programs, self.options = action, programs, options
        self.__doc__ = inspect.getdoc(action)

    def arguments(self, parser):
        for name in self.programs:
            running.program_argument(parser, name)
        for name, (default, what) in self.options.items():
            kind = {"action": "store_true"} if default is False else {"type": int, "metavar": "N", "default": default}
            parser.add_argument(f"--{name}", help=what, **kind)

    def run(self, options):
        running.require(*(getattr(options, name) for name in self.programs))
        self.action(options.tally, options, options.temporary)


QUICK = False, "a few cases: the form of make test"
LIMITS = {
    "refuse": Limit(memory.refuse, "tp", "samples", quick=QUICK),
    "refuse-tests": Limit(memory.refuse_tests),
    "memory": Limit(memory.address_space, "tp"),
    "live": Limit(memory.live, "samples"),
    "strange": Limit(strange.strange, "tp", quick=QUICK),
    "manners": Limit(strange.manners, "tp", "samples"),
    "progress": Limit(terminal.progress, "samples"),
    "reasons": Limit(terminal.reasons, "tp"),
    "cuts": Limit(texts.cuts, "tp"),
    "random": Limit(texts.random_cases, "tp", texts=(400, "scripts, and as many traces (400)"), seed=(1, "the generator's seed (1)")),
}
