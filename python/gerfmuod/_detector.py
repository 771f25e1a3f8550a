"""When has a program of several processes terminated? One process's part of the proved detector."""
from __future__ import annotations

import contextlib
import ctypes
import threading
from typing import Any, Callable, Iterator

from ._library import library
from ._refused import Refused

SEND, ENDED = 1, 3  # what gerfmuod_process_next returns, beside NOTHING and AGAIN; a refusal is above 100
NOT_DUE, NOT_YET, LATE = 103, 104, 105


class Detector:
    """The four counter method of F. Mattern (1987) for processes that exchange messages by any transport.

    A process counts its work and its messages, and carries the detector's control messages of 56
    bytes beside its own. It begins with one open piece of work, its start::

        detector = Detector(number, processes, send_control)
        ...                              # the first messages, each counted by sent()
        detector.finish()                # the start is done
        while not detector.ended():
            message = receive()
            if is_control(message):
                detector.take(message)
            else:
                with detector.received():
                    handle(message)      # what it sends is counted by sent()

    Args:
        number: the number of this process, from 0.
        processes: how many there are; each process has to give the same.
        send: called with the number of a process and a control message of 56 bytes for it, from
            :meth:`ended`. It may call no method of the detector.

    Proved: :meth:`ended` returns True only if no process has work of this epoch and no counted
    message of it is in flight. Several threads may use one detector.
    """

    def __init__(self, number: int, processes: int, send: Callable[[int, bytes], Any]) -> None:
        self._process = (ctypes.c_uint64 * 12)()
        self._send = send
        self._lock = threading.Lock()
        self._call("init", number, processes)

    def add(self) -> None:
        """Opens a piece of work, before it can run. Refused: ``NoWork`` if none is open; ``CountFull``."""
        self._call("add_work")

    def finish(self) -> None:
        """Closes a piece of work, after all that it sent was counted. Refused: ``NoWork``."""
        self._call("finish_work")

    def sent(self) -> int:
        """Counts a message, before the transport gets it.

        Returns:
            The epoch, which has to go with the message if there is more than one.

        Raises:
            Refused: ``NoWork`` if no piece of work is open; ``CountFull``.
        """
        with self._lock:
            self._check(library.gerfmuod_process_count_sent(self._process))
            return int(library.gerfmuod_process_epoch(self._process))

    @contextlib.contextmanager
    def received(self, epoch: int = 0) -> Iterator[None]:
        """Counts a message that came; what is done inside of the ``with`` statement is a piece of work.

        Raises:
            Refused: ``NotYet`` if the message is of the next epoch: keep it until :meth:`reopen`;
                ``Late``; ``CountFull``.
        """
        self._call("count_received", epoch)
        try:
            yield
        finally:
            self.finish()

    @contextlib.contextmanager
    def work(self) -> Iterator[None]:
        """A piece of work: :meth:`add`, and :meth:`finish` at the end of the ``with`` statement."""
        self.add()
        try:
            yield
        finally:
            self.finish()

    def take(self, control: bytes) -> bool:
        """Takes a control message that came. Returns False if it is of the next epoch: keep it until :meth:`reopen`.

        Raises:
            ValueError: it does not have 56 bytes.
            Refused: ``Malformed`` if no detector sends such a message, ``Mismatched`` if its sender has
                another number of processes.
        """
        if len(control) != 56:
            raise ValueError(f"a control message of {len(control)} bytes")
        message = (ctypes.c_uint64 * 7).from_buffer_copy(control)
        with self._lock:
            refused = library.gerfmuod_process_take(self._process, message)
        if refused not in (NOT_DUE, NOT_YET, LATE):  # these are no error: it came twice, or in another order
            self._check(refused)
        return bool(refused != NOT_YET)

    def ended(self) -> bool:
        """Sends the control messages that are due. Call it in the loop of the program, after each other call.

        Returns:
            Whether no process has work of this epoch, and no counted message of it is in flight.

        Raises:
            Refused: ``Miscounted`` in process 0 if the counts show a message that was sent uncounted,
                or whose receipt was counted twice.
        """
        message = (ctypes.c_uint64 * 7)()
        while True:
            with self._lock:
                result = library.gerfmuod_process_next(self._process, message)
            if result != SEND:
                break
            self._send(int(message[2]), bytes(message))
        self._check(result if result > 100 else 0)
        return bool(result == ENDED)

    def reopen(self) -> None:
        """Begins the next epoch, after :meth:`ended` returned True, with one piece of work open."""
        self._call("reopen")

    @property
    def epoch(self) -> int:
        """The number of epochs that ended here."""
        with self._lock:
            return int(library.gerfmuod_process_epoch(self._process))

    def __str__(self) -> str:
        """Returns a line for a program that hangs: its open work, its counts, the newest wave, and what it waits for."""
        with self._lock:
            return bytes(library.gerfmuod_process_text(self._process)).decode()

    def _call(self, name: str, *arguments: int) -> None:
        with self._lock:
            refused = getattr(library, f"gerfmuod_process_{name}")(self._process, *arguments)
        self._check(refused)

    @staticmethod
    def _check(refused: int) -> None:
        if refused:
            raise Refused(refused)
