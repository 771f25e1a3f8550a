"""One task graph over the processes of an MPI communicator, by mpi4py.

Every process runs the same text. It names all data, each with the process where it lives, and all tasks
in the order of the sequential program, each with what it reads and writes::

    from mpi4py import MPI
    from gerfmuod.mpi import Graph, read, update

    graph = Graph(MPI.COMM_WORLD)
    block = [graph.data(b % graph.size, [b]) for b in range(8)]
    for b in range(1, 8):
        graph.task(list.extend, update(block[b]), read(block[b - 1]))
    graph.run(threads=2)            # block[7].value is there in process 7 % graph.size

A value that another process reads is pickled; the memory of a bytearray, of an array, and of numpy's arrays, also
in other values, is sent as it is.

The decisions are those of gerfmuod/part.h, which are proved; the copies and the messages are tested.
"""
from __future__ import annotations

import array
import ctypes
import pickle
import queue
import time
import zlib
from concurrent.futures import ThreadPoolExecutor
from typing import Any, Callable, Dict, List, NamedTuple, Optional, Tuple

from mpi4py import MPI

from ._library import READ, WRITE, Access, GraphResult, library
from ._pool import Accessed as _Access, read, update, write
from ._refused import Refused

__all__ = ["Data", "Graph", "Stopped", "read", "update", "write"]
CLOSE, HANDLE, START, NEXT, DONE, ARRIVED = range(6)
RUN, SEND, OVER = 1, 2, 4
NO_NODE, BAD_SPEC, DIFFERENT = 1, 26, 69
#: The tags of messages: that the graph was stopped, and the first with values.
STOP, FIRST_VALUE = 0, 1
#: How long the caller sleeps while nothing comes, in seconds.
PAUSE = 0.0001
#: The most bytes of one message with memory.
PIECE = 1 << 30
#: No failure; others are 2^32 times a process, and a task.
NO_FAILURE = 0x7FFFFFFFFFFFFFFF

_u32, _part = ctypes.c_uint32, ctypes.POINTER(ctypes.c_uint64)
for _name, _result, _arguments in (
    ("open", None, [_part, _u32, _u32]),
    ("call", GraphResult, [_part, _u32, _u32]),
    ("shared_task", GraphResult, [_part, _u32, ctypes.POINTER(Access), ctypes.c_size_t, _u32]),
):
    _function = getattr(library, f"gerfmuod_part_{_name}")
    _function.restype, _function.argtypes = _result, _arguments


class Stopped(Exception):
    """A body failed in another process.

    Attributes:
        process: its number.
        task: the number of the task, counted with the data from 0 in the order of their description.
    """

    def __init__(self, process: int, task: int) -> None:
        self.process, self.task = process, task
        super().__init__(f"task {task} failed in process {process}")


class Data:
    """A value that lives in one process.

    Attributes:
        owner: the process where it lives.
        value: the value, in the process where it lives; None elsewhere.
    """

    def __init__(self, graph: "Graph", owner: int, value: Any, handle: int) -> None:
        self.graph, self.owner, self.value = graph, owner, value
        self._handle, self._writer = handle, 0


class _Copy(NamedTuple):
    """A version of a datum that another process sends: the task that wrote it, and the datum."""

    task: int
    handle: int


class _Buffer:
    """A bytearray or an array whose memory is not pickled, but is left to the caller of pickle."""

    def __init__(self, value: Any) -> None:
        self.value = value

    def __reduce_ex__(self, protocol: Any) -> Tuple[Callable[..., Any], tuple]:
        return _restored, (getattr(self.value, "typecode", ""), pickle.PickleBuffer(self.value))


def _restored(typecode: str, buffer: Any) -> Any:
    if not typecode:
        return buffer
    restored = array.array(typecode)
    restored.frombytes(buffer)
    return restored


def _pieces(view: memoryview) -> List[memoryview]:
    return [view[start:start + PIECE] for start in range(0, len(view), PIECE)]


class Graph:
    """A task graph over all processes of a communicator.

    Args:
        communicator: of mpi4py; the graph has a copy of it. Collective.

    Attributes:
        rank: the number of this process.
        size: how many there are.
    """

    def __init__(self, communicator: MPI.Comm) -> None:
        self._world = communicator.Dup()
        self.rank, self.size = self._world.rank, self._world.size
        self._part = (ctypes.c_uint64 * 64)()
        library.gerfmuod_part_open(self._part, self.rank, self.size)
        self._own: Dict[int, Tuple[Callable[..., Any], tuple]] = {}
        self._data: List[Data] = []
        self._goes: Dict[Tuple[int, int], List[int]] = {}  # task and process: the data that a message has
        self._readers: Dict[_Copy, int] = {}  # how many arguments of tasks here are this version
        self._values: Dict[_Copy, Any] = {}
        self._hash, self._failure = 0, NO_FAILURE
        self._error: Optional[BaseException] = None
        self._sent = array.array("Q", [0]) * self.size
        self._received = array.array("Q", [0]) * self.size
        self._requests: Dict[Tuple[int, int], List[MPI.Request]] = {}  # of what was sent to a process with a tag
        self._reads: Dict[int, List[Tuple[int, int]]] = {}  # task elsewhere: what it reads of what is sent, by task and process

    def data(self, owner: int, value: Any = None) -> Data:
        """Names a datum that lives in a process, which is the only one whose value is used.

        Raises:
            Refused: ``NoNode`` if there is no such process; ``HistoryFull``; ``NoMemory``.
        """
        if not 0 <= owner < self.size:
            raise Refused(NO_NODE)
        data = Data(self, owner, value if owner == self.rank else None, self._call(HANDLE).number)
        self._data.append(data)
        data._writer = self._describe([_Access(data, WRITE)], owner, 0)
        if owner == self.rank:
            self._own[data._writer] = (lambda: None, ())
        return data

    def task(self, function: Callable[..., Any], *arguments: Any, priority: int = 0) -> None:
        """Describes a task, which calls a function where the data live that it writes, or else the first that it reads.

        Args:
            arguments: of the function; of :func:`read`, :func:`write` and :func:`update` it gets the value.
            priority: 0, which runs first, to 3.

        Raises:
            Refused: ``NoNode`` if it writes data of two processes; ``BadSpec`` if it names no datum, or the priority is
                none; ``HistoryFull``; ``NoMemory``.
            ValueError: a datum is of another graph.
        """
        accesses = [argument for argument in arguments if isinstance(argument, _Access)]
        if any(getattr(access.data, "graph", None) is not self for access in accesses):
            raise ValueError("a datum of another graph")
        owners = {access.data.owner for access in accesses if access.mode != READ} or {a.data.owner for a in accesses[:1]}
        if len(owners) != 1:
            raise Refused(NO_NODE if owners else BAD_SPEC)
        owner = owners.pop()
        number = self._describe(accesses, owner, priority)
        if owner == self.rank:
            self._own[number] = function, self._bound(arguments)
        else:
            self._send_to(owner, accesses, number)
        for access in accesses:
            if access.mode != READ:
                access.data._writer = number

    def _bound(self, arguments: tuple) -> tuple:
        """The arguments of an own task, with the versions that it reads of data elsewhere."""
        bound = []
        for argument in arguments:
            if isinstance(argument, _Access) and argument.data.owner != self.rank:
                argument = _Copy(argument.data._writer, argument.data._handle)
                self._readers[argument] = self._readers.get(argument, 0) + 1
            bound.append(argument)
        return tuple(bound)

    def _send_to(self, owner: int, accesses: List[_Access], reader: int) -> None:
        for access in accesses:
            if access.data.owner == self.rank and access.mode != WRITE:
                self._reads.setdefault(reader, []).append((access.data._writer, owner))
                sent = self._goes.setdefault((access.data._writer, owner), [])
                if access.data._handle not in sent:
                    sent.append(access.data._handle)

    def _describe(self, accesses: List[_Access], owner: int, priority: int) -> int:
        words = (Access * len(accesses))(*((access.data._handle, access.mode) for access in accesses))
        self._hash = zlib.crc32(bytes(words) + bytes(f"{owner} {priority}", "ascii"), self._hash)
        result = library.gerfmuod_part_shared_task(self._part, priority, words, len(words), owner)
        if result.refused:
            raise Refused(result.refused)
        return int(result.number)

    def _call(self, number: int, task: int = 0) -> GraphResult:
        result = library.gerfmuod_part_call(self._part, number, task)
        if result.refused:
            raise Refused(result.refused)
        return result

    def run(self, threads: int = 1) -> None:
        """Runs the graph on threads of each process, and returns when all tasks of the graph are done. Collective; once.

        Raises:
            Refused: ``Different`` if the processes described different graphs; ``WrongLife`` if the graph ran before.
            Stopped: a body failed in another process. If one failed here, its exception is raised.
        """
        if len(set(self._world.allgather((self._hash, len(self._data))))) != 1:
            raise Refused(DIFFERENT)
        self._call(START)
        with ThreadPoolExecutor(threads) as pool:
            self._work(pool, threads)
        self._agree()
        if self._error:
            raise self._error
        if self._failure != NO_FAILURE:
            raise Stopped(self._failure >> 32, self._failure & 0xFFFFFFFF)

    def _work(self, pool: ThreadPoolExecutor, threads: int) -> None:
        """Until the part is over, or the graph was stopped."""
        finished: "queue.SimpleQueue[Tuple[int, Optional[BaseException]]]" = queue.SimpleQueue()
        running = 0
        while self._failure == NO_FAILURE:
            result = self._call(NEXT) if running < threads else None
            if result and result.next == RUN:
                running += 1
                pool.submit(self._run, int(result.number), finished)
            elif result and result.next == SEND:
                self._send(int(result.number), int(result.signals))
            elif result and result.next == OVER:
                return
            elif not self._receive():
                running -= self._finish(finished)

    def _run(self, number: int, finished: Any) -> None:
        function, arguments = self._own[number]
        try:
            function(*map(self._value_of, arguments))
            finished.put((number, None))
        except BaseException as error:  # pylint: disable=broad-except
            finished.put((number, error))

    def _value_of(self, argument: Any) -> Any:
        if isinstance(argument, _Access):
            return argument.data.value
        return self._values[argument] if isinstance(argument, _Copy) else argument

    def _finish(self, finished: Any) -> int:
        """Reports a body that returned; returns how many did."""
        try:
            number, error = finished.get_nowait()
        except queue.Empty:
            time.sleep(PAUSE)  # (get with a short timeout may wait for the next body to return, in Python 3.11)
            return 0
        if error:
            self._error, self._failure = error, self.rank << 32 | number
            for process in range(self.size):
                if process != self.rank:
                    self._isend(self._failure, process, STOP)
        else:
            self._call(DONE, number)
        self._forget(self._own.pop(number)[1])
        return 1

    def _forget(self, arguments: tuple) -> None:
        """Drops each version that no further task reads."""
        for argument in arguments:
            if isinstance(argument, _Copy):
                self._readers[argument] -= 1
                if not self._readers[argument]:
                    self._values.pop(argument, None)

    def _isend(self, message: Any, to: int, tag: int) -> None:
        """Sends what is pickled and how long the memory is that is not, and then that memory."""
        buffers: List[pickle.PickleBuffer] = []
        pickled = pickle.dumps(message, 5, buffer_callback=buffers.append)
        views = [buffer.raw() for buffer in buffers]
        self._requests = {key: own for key, own in self._requests.items() if not MPI.Request.Testall(own)}
        requests = self._requests.setdefault((tag, to), [])
        requests.append(self._world.isend((pickled, [len(view) for view in views]), to, tag))
        requests += [self._world.Isend([piece, MPI.BYTE], to, tag) for view in views for piece in _pieces(view)]
        self._sent[to] += 1

    def _send(self, task: int, to: int) -> None:
        values = [(handle, self._data[handle].value) for handle in self._goes.get((task, to), [])]
        own = [(handle, _Buffer(value) if type(value) in (bytearray, array.array) else value) for handle, value in values]
        self._isend(own, to, FIRST_VALUE + task)

    def _receive(self) -> bool:
        """Receives one message, if one came; returns whether it did."""
        status = MPI.Status()
        if not self._world.iprobe(status=status):
            return False
        pickled, lengths = self._world.recv(source=status.source, tag=status.tag)
        buffers = [bytearray(length) for length in lengths]
        for piece in (piece for buffer in buffers for piece in _pieces(memoryview(buffer))):
            self._world.Recv([piece, MPI.BYTE], status.source, status.tag)
        message = pickle.loads(pickled, buffers=buffers)
        self._received[status.source] += 1
        if status.tag == STOP:
            self._failure = min(self._failure, message)
        elif self._failure == NO_FAILURE:
            task = status.tag - FIRST_VALUE
            for handle, value in message:
                self._values[_Copy(task, handle)] = value
            # (it read what it got; what writes there now comes after the end of these sends, as MPI asks)
            for writer, to in self._reads.pop(task, ()):
                MPI.Request.Waitall(self._requests.pop((FIRST_VALUE + writer, to), []))
            self._call(ARRIVED, task)
        return True

    def _agree(self) -> None:
        """Waits for the end of all processes; after a stop, receives what is in flight."""
        mine, least = array.array("q", [self._failure]), array.array("q", [0])
        agreed = self._world.Iallreduce([mine, MPI.INT64_T], [least, MPI.INT64_T], MPI.MIN)
        while not agreed.Test():
            if not self._receive():
                time.sleep(PAUSE)
        self._failure = least[0]
        if self._failure != NO_FAILURE:
            coming = array.array("Q", [0]) * self.size
            self._world.Alltoall([self._sent, MPI.UINT64_T], [coming, MPI.UINT64_T])
            while self._received != coming:
                self._receive()
        MPI.Request.Waitall([request for own in self._requests.values() for request in own])

    def close(self) -> None:
        """Frees what the graph has. Collective. No other call may follow."""
        library.gerfmuod_part_call(self._part, CLOSE, 0)
        self._world.Free()
