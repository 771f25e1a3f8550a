"""The exception for a call that the library refused."""
from __future__ import annotations

from typing import Optional, Tuple, Type

from ._library import NONE, library


class Refused(Exception):
    """The library refused a call.

    Attributes:
        name: the name of the refusal, such as ``"NoTask"``.
        number: its number, as in gerfmuod/refusals.h.
        meaning: a sentence that explains it.
        task: the number of the task that it is about, or None.
    """

    def __init__(self, number: int, task: int = NONE) -> None:
        self.number = number
        self.name, _, self.meaning = library.gerfmuod_refusal_text(number).decode().partition(": ")
        self.task: Optional[int] = None if task == NONE else task
        where = "" if self.task is None else f" at task {self.task}"
        super().__init__(f"{self.name}{where}: {self.meaning}")

    def __reduce__(self) -> "Tuple[Type[Refused], Tuple[int, int]]":
        return Refused, (self.number, NONE if self.task is None else self.task)
