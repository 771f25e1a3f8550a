"""The shared object, and the types of its calls. They are those of gerfmuod/team.h and gerfmuod/process.h."""
from __future__ import annotations

import ctypes
import os
from pathlib import Path
from typing import Any, Iterator

NAME = "libgerfmuod.so.0"
#: No task has this number.
NONE = 0xFFFFFFFF
NOT_STARTED = 65
#: What a turn returns if it returns a task, and if it goes on in a second call.
RUN, SLEEP = 1, 3
READ, WRITE, UPDATE = 1, 2, 3  # enum gerfmuod_mode


class GraphResult(ctypes.Structure):
    """The result of a turn: gerfmuod_graph_result."""

    _fields_ = [(name, ctypes.c_uint32) for name in ("refused", "next", "number", "signals")]


class Access(ctypes.Structure):
    """What a task does with a handle: gerfmuod_access."""

    _fields_ = [(name, ctypes.c_uint32) for name in ("handle", "mode")]


def _candidates() -> Iterator[str]:
    """Yields the paths where the shared object may be, in order of preference."""
    chosen = os.environ.get("GERFMUOD_LIBRARY")
    if chosen:
        yield chosen
        return
    here = Path(__file__).resolve().parent
    for folder in (here, here.parents[1] / "lib"):
        if (folder / NAME).exists():
            yield str(folder / NAME)
    yield NAME


def _load() -> ctypes.CDLL:
    reasons = []
    for path in _candidates():
        try:
            return ctypes.CDLL(path)
        except OSError as error:
            reasons.append(str(error))
    advice = "build it, or set GERFMUOD_LIBRARY to its path"
    raise ImportError(f"{NAME} was not found; {advice}: {'; '.join(reasons)}")


def _declare(library: ctypes.CDLL) -> ctypes.CDLL:
    """Sets the types of the calls."""
    u32, u64, size, team = ctypes.c_uint32, ctypes.c_uint64, ctypes.c_size_t, ctypes.c_void_p
    process = control = ctypes.POINTER(u64)
    numbers, opened = ctypes.POINTER(u32), ctypes.POINTER(ctypes.c_void_p)
    types = {
        "gerfmuod_team_open": (u32, [opened]),
        "gerfmuod_team_open_traced": (u32, [opened]),
        "gerfmuod_team_close": (None, [team]),
        "gerfmuod_team_task": (u32, [team, u32, numbers, size, numbers]),
        "gerfmuod_team_spawn": (u32, [team, u32, numbers, size, u32, team, team, numbers]),
        "gerfmuod_team_task_on": (u32, [team, u32, ctypes.POINTER(Access), size, u32, team, team, numbers]),
        "gerfmuod_team_handle": (u32, [team, numbers]),
        "gerfmuod_team_outside": (u32, [team, u32]),
        "gerfmuod_team_release": (u32, [team, u32]),
        "gerfmuod_team_start": (u32, [team, u32]),
        "gerfmuod_team_await_turn": (GraphResult, [team]),
        "gerfmuod_team_again": (u32, [team]),
        "gerfmuod_team_reset": (u32, [team]),
        "gerfmuod_team_clear": (u32, [team]),
        "gerfmuod_team_left": (u32, [team]),
        "gerfmuod_team_stop": (None, [team, u32]),
        "gerfmuod_team_fault": (u32, [team]),
        "gerfmuod_team_failed": (u32, [team]),
        "gerfmuod_refusal_text": (ctypes.c_char_p, [u32]),
        "gerfmuod_team_trace": (size, [team, ctypes.c_char_p, size]),
        "gerfmuod_team_record": (u32, [team, u32]),
        "gerfmuod_team_profile": (u32, [team, ctypes.c_void_p]),
        "gerfmuod_team_summary": (u32, [team, ctypes.c_void_p]),
        "gerfmuod_process_init": (u32, [process, u32, u32]),
        "gerfmuod_process_add_work": (u32, [process]),
        "gerfmuod_process_finish_work": (u32, [process]),
        "gerfmuod_process_count_sent": (u32, [process]),
        "gerfmuod_process_count_received": (u32, [process, u64]),
        "gerfmuod_process_take": (u32, [process, control]),
        "gerfmuod_process_next": (u32, [process, control]),
        "gerfmuod_process_reopen": (u32, [process]),
        "gerfmuod_process_epoch": (u64, [process]),
        "gerfmuod_process_text": (ctypes.c_char_p, [process]),
        "fdopen": (ctypes.c_void_p, [ctypes.c_int, ctypes.c_char_p]),  # of the C library
        "fclose": (ctypes.c_int, [ctypes.c_void_p]),
    }
    for name, (result, arguments) in types.items():
        function = getattr(library, name)
        function.restype, function.argtypes = result, arguments
    return library


library = _declare(_load())
#: A turn, or its beginning, during which the interpreter's lock is kept: it never waits for a task.
try_turn = ctypes.PyDLL(library._name).gerfmuod_team_try_turn
try_turn.restype, try_turn.argtypes = GraphResult, [ctypes.c_void_p, ctypes.c_uint32]


class Team(ctypes.c_void_p):
    """A team of the library. It is closed when nothing refers to it any more, so that no call uses one that is closed."""

    def __del__(self, close: Any = library.gerfmuod_team_close) -> None:
        close(self)
