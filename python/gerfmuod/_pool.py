"""Pools and their tasks."""
from __future__ import annotations

import asyncio
import collections
import contextlib
import ctypes
import operator
import os
import queue
import signal
import threading
import weakref
from typing import Any, Callable, Dict, Generic, Iterable, Iterator, List, NamedTuple, Optional, Tuple, TypeVar, Union

from ._library import NONE, NOT_STARTED, READ, RUN, SLEEP, UPDATE, WRITE, Access, Team, library, try_turn
from ._refused import Refused

Result = TypeVar("Result")
Path = Union[str, "os.PathLike[str]"]


class Task(Generic[Result]):
    """A task of a pool. As an argument of a later task it is replaced by its result. Its methods are a Future's, but never wait."""

    __slots__ = ("number", "_owner", "_result", "_error", "_is_done")

    def __init__(self, owner: object, number: int) -> None:
        self.number = number
        self._owner = owner  # of one pool; a reference to the pool itself would be a cycle
        self._result: Any = None
        self._error: Optional[BaseException] = None
        self._is_done = False

    def _end(self, result: Any, error: Optional[BaseException], is_done: bool = True) -> None:
        self._result, self._error, self._is_done = result, error, is_done

    def result(self) -> Result:
        """Returns what the task's function returned, or raises what it raised; RuntimeError if the task did not run."""
        if self.exception() is not None:
            raise self._error  # type: ignore[misc]
        return self._result  # type: ignore[no-any-return]

    def exception(self) -> Optional[BaseException]:
        """Returns what the task's function raised, or None. Raises RuntimeError if the task did not run."""
        if not self._is_done:
            raise RuntimeError(f"task {self.number} did not run")
        return self._error

    def done(self) -> bool:
        """Returns whether the task's function has returned or raised."""
        return self._is_done

    def __repr__(self) -> str:
        return f"<Task {self.number}{', done' if self._is_done else ''}>"


class Handle:
    """A piece of data that tasks access, of the pool that created it."""

    __slots__ = ("number", "_owner")

    def __init__(self, owner: object, number: int) -> None:
        self.number = number
        self._owner = owner

    def __repr__(self) -> str:
        return f"<{type(self).__name__} {self.number}>"


class Data(Handle):
    """A value with a handle. A task gets the value if an argument is :func:`read`, :func:`write` or :func:`update` of it."""

    __slots__ = ("value",)
    value: Any


Accessed = NamedTuple("Accessed", [("data", Any), ("mode", int)])  # an argument of a task, and what the task does with it


def read(data: Any) -> Any:
    """An argument of a task: the value, which the task leaves as it is."""
    return Accessed(data, READ)


def write(data: Any) -> Any:
    """An argument of a task: an object that the task changes, without use of what it was before."""
    return Accessed(data, WRITE)


def update(data: Any) -> Any:
    """An argument of a task: an object that the task reads and changes."""
    return Accessed(data, UPDATE)


#: A task, its function and the arguments.
_Job = Tuple[Task[Any], Callable[..., Any], Tuple[Any, ...], Dict[str, Any]]


class _Exit:
    """Where the threads of a run leave it. It refers to nothing of the run."""

    def __init__(self, count: int) -> None:
        self.count, self.left = count, 0
        self._lock, self.ended = threading.Lock(), threading.Lock()
        self.ended.acquire()  # until all have left

    def leave(self) -> None:
        with self._lock:
            self.left += 1
            if self.left == self.count:
                self.ended.release()


class _Crew:
    """The threads of a pool, which stay between its runs. Each waits for a run in a queue, and none refers to this object."""

    def __init__(self) -> None:
        self.process = os.getpid()
        self._threads: List[threading.Thread] = []
        self._runs: "queue.SimpleQueue[Any]" = queue.SimpleQueue()
        self._end = weakref.ref(self, self._runs.put)  # is in the queue once this object is gone, and ends the threads

    def grow(self, count: int) -> None:
        """Starts threads until there is this number."""
        while len(self._threads) < count:
            thread = threading.Thread(target=_serve, name="gerfmuod", args=(self._runs, self._end), daemon=True)
            try:
                thread.start()
            except RuntimeError as error:
                raise Refused(NOT_STARTED) from error
            self._threads.append(thread)

    def call(self, runs: "Iterator[_Run]") -> None:
        """Lets a thread take part in each of these runs. No handler of a signal runs in between, since no bytecode does."""
        collections.deque(map(self._runs.put, runs), 0)

    def end(self) -> None:
        self._runs.put(self._end)
        for thread in self._threads:
            thread.join()


def _serve(runs: "queue.SimpleQueue[Any]", end: "weakref.ref[_Crew]") -> None:
    """What a thread of a crew does. Between runs its frame refers to none."""
    for run in iter(runs.get, end):
        way_out = run.way_out
        run.work()
        del run
        way_out.leave()
    runs.put(end)  # for the next thread


class _Run:
    """One run of a team, and what ended it. None of its threads is the caller, which waits and sees interrupts."""

    def __init__(self, team: Team, jobs: "List[Optional[_Job]]", keeps_jobs: bool, count: int, report: Callable[[], None]) -> None:
        self.team, self.jobs, self.keeps_jobs, self.report = team, jobs, keeps_jobs, report
        self.errors: "List[Tuple[BaseException, Optional[Task[Any]]]]" = []  # and the task that raised it, if one did
        self.has_begun = False
        self.way_out = _Exit(count)

    def run(self, crew: _Crew) -> None:
        """Runs all tasks, and returns when the threads have left."""
        count = self.way_out.count
        parts = iter([self] * count)  # it shows how many threads were called, also if an interrupt comes
        try:
            crew.grow(count)
            _check(self.team, library.gerfmuod_team_start(self.team, count))
            self.has_begun = True
            crew.call(parts)
        except BaseException as error:
            self.fail(error)
        if self.errors and self.has_begun:  # an interrupt before that
            library.gerfmuod_team_stop(self.team, NONE)
        called = count - operator.length_hint(parts)
        while self.way_out.left < called:
            self._wait()

    def fail(self, error: BaseException, task: "Optional[Task[Any]]" = None) -> None:
        """Ends the run because of an exception. The first one gets a note for each task that failed."""
        self.errors.append((error, task))
        if self.has_begun:
            library.gerfmuod_team_stop(self.team, task.number if task else NONE)
        with contextlib.suppress(Exception):  # AttributeError before Python 3.11, or of a class of the caller's
            if task:
                self.errors[0][0].add_note(f"task {task.number} of the pool raised {error!r}")  # type: ignore[attr-defined]

    def _wait(self) -> None:
        try:
            # not for longer, or else an interrupt that the system delivers to another thread is not seen
            if not self.way_out.ended.acquire(timeout=0.1) and not self.errors:
                self.report()
        except BaseException as error:  # raised by the callback, or by the handler of a signal other than SIGINT
            self.fail(error)

    def work(self) -> None:
        """Runs tasks until the run is over or stops."""
        done, team = NONE, self.team
        try:
            while True:
                answer = try_turn(team, done)
                if answer.next == SLEEP:
                    answer = library.gerfmuod_team_await_turn(team)
                if answer.next != RUN:  # or it is refused
                    return
                done = answer.number
                self._call(done)  # if it fails, the next turn is refused
        except BaseException as error:  # not of a task's function
            self.fail(error)
        finally:
            del self, team  # frames of an exception that a task keeps refer to this one

    def _call(self, number: int) -> None:
        """Calls the function of a task, which is dropped unless the pool keeps bodies."""
        task, function, arguments, keywords = self.jobs[number]  # type: ignore[misc]
        if not self.keeps_jobs:
            self.jobs[number] = None
        try:
            if keywords:
                keywords = {name: _value(it) for name, it in keywords.items()}
            task._end(function(*map(_value, arguments), **keywords) if arguments or keywords else function(), None)
        except BaseException as error:
            task._end(None, error)
            self.fail(error, task)
        finally:
            del self, task, function, arguments, keywords  # the exception refers to this frame


@contextlib.contextmanager
def _interrupts(catch: Callable[[BaseException], None]) -> Iterator[None]:
    """While it is entered, an exception of the handler of SIGINT is passed on instead of being raised anywhere in between."""
    handler: Any = signal.getsignal(signal.SIGINT) if threading.current_thread() is threading.main_thread() else None

    def handle(number: int, frame: Any) -> None:
        try:
            handler(number, frame)
        except BaseException as error:
            catch(error)

    if callable(handler):
        signal.signal(signal.SIGINT, handle)
    try:
        yield
    finally:
        if callable(handler):
            signal.signal(signal.SIGINT, handler)


class Pool:
    """A graph of tasks, which runs once, or again after :meth:`again`.

    Args:
        traced: whether the pool keeps the events of a run for :meth:`trace`. Then it can have
            349,522 tasks; without, 134,217,728, and a run takes less time and memory.
        keep_bodies: whether functions and their arguments live as long as the pool. Otherwise each
            is dropped when it ran, and :meth:`again` and :meth:`reset` raise RuntimeError.

    :meth:`run` calls the functions of the tasks on several threads, which stay until the pool is
    closed or no longer referenced. Any thread, also a function of a task, may call :meth:`task`,
    :meth:`outside`, :meth:`release` and :meth:`stop`. The other methods raise RuntimeError while
    the pool runs. All raise ValueError if the pool is closed, TypeError if an argument is no task
    or no integer, and Refused as the library's calls.
    """

    def __init__(self, *, traced: bool = False, keep_bodies: bool = False) -> None:
        team = Team()
        open_team = library.gerfmuod_team_open_traced if traced else library.gerfmuod_team_open
        refused = open_team(ctypes.byref(team))
        if refused:
            raise Refused(refused)
        self._team: Optional[Team] = team
        self._identity = object()
        self._jobs: List[Optional[_Job]] = []
        self._keeps_bodies = keep_bodies
        self._newest = ctypes.c_uint32(NONE)  # the last task's number, which the library writes
        self._at_newest = ctypes.byref(self._newest)
        self._failed: "Optional[Task[Any]]" = None
        self._lock: Any = threading.RLock()  # held while a task gets its number, and by calls that the library takes one at a time
        self._running = threading.Lock()  # held in a run
        self._crew = _Crew()

    def task(
        self,
        function: Callable[..., Result],
        *arguments: Any,
        after: "Iterable[Task[Any]]" = (),
        reads: Iterable[Handle] = (),
        writes: Iterable[Handle] = (),
        updates: Iterable[Handle] = (),
        priority: int = 0,
        releases: int = 0,
        **keywords: Any,
    ) -> "Task[Result]":
        """Adds a task, before the run or in it: one call of a function.

        Args:
            function: the function that the task calls.
            arguments, keywords: the arguments of the function. One that is a task of this pool is
                replaced by its result, and the new task waits for it. One that is :func:`read`,
                :func:`write` or :func:`update` of data of this pool is replaced by their value, and
                accesses them. Tasks and data inside lists and other values are not found.
            after: further tasks that the new task waits for.
            reads, writes, updates: further data that the function reads, writes as a whole, or reads
                and writes. If two tasks access a handle, and one of them not only reads it, the
                later one waits for the earlier one: the run gives what the functions would give if
                they were called in the order in which the tasks were added. Such a task has no other
                task in ``after`` or as an argument.
            priority: the class of the task, 0 to 3. Ready tasks with a lower number run first.
            releases: how many calls of :meth:`release` the task waits for.

        Raises:
            ValueError: a task or a handle is of another pool, a number is negative, or there are both
                tasks to wait for and data.
            Refused: ``BadSpec`` (priority), ``Ended`` if all tasks are done, ``HistoryFull``,
                ``NoMemory``, and ``Stopped``.
        """
        if not callable(function):
            raise TypeError(f"the function of a task is {function!r}")
        waits_for: List[int] = []
        accesses: List[Tuple[int, int]] = []
        for it in (*arguments, *keywords.values()) if keywords else arguments:
            if isinstance(it, Task):
                waits_for.append(self._number_of(it))
            elif isinstance(it, Accessed):
                accesses.append((self._number_of(it.data, Data), it.mode))
        for it in after:
            if not isinstance(it, Task):
                raise TypeError(f"after has {it!r}, which is no task")
            waits_for.append(self._number_of(it))
        if reads or writes or updates:
            named = zip((READ, WRITE, UPDATE), (reads, writes, updates))
            accesses += [(self._number_of(it, Handle), mode) for mode, handles in named for it in handles]
        if accesses and waits_for:
            raise ValueError("a task names either tasks that it waits for or data")
        inputs: Any = accesses or waits_for
        kind: Any = Access if accesses else ctypes.c_uint32
        array = (kind * len(inputs))(*inputs) if inputs else None
        call = library.gerfmuod_team_task
        wanted: List[Any] = [_number("priority", priority), array, len(inputs)]
        outside = _number("releases", releases)
        if accesses or outside:  # a call with more arguments, which takes longer
            call = library.gerfmuod_team_task_on if accesses else library.gerfmuod_team_spawn
            wanted += outside, None, None
        team = self._open_team()
        with self._free_lock():
            number = (self._newest.value + 1) & NONE  # len(self)
            task: "Task[Result]" = Task(self._identity, number)
            del self._jobs[number:]  # that of a call that was interrupted
            self._jobs.append((task, function, arguments, keywords))  # before any thread can run it
            refused = call(team, *wanted, self._at_newest)
            if refused:
                self._jobs.pop()
        if refused:
            _check(team, refused)
        return task

    def handle(self) -> Handle:
        """Returns a new handle, which stands for a piece of data: see ``reads`` of :meth:`task`.

        Raises:
            Refused: ``HistoryFull`` after 134,217,728 of them, ``NoMemory``, and ``Stopped``.
        """
        team, number = self._open_team(), ctypes.c_uint32()
        _check(team, library.gerfmuod_team_handle(team, ctypes.byref(number)))
        return Handle(self._identity, number.value)

    def data(self, value: Any = None) -> Data:
        """Returns a new handle with a value. It is refused as :meth:`handle`."""
        data = Data(self._identity, self.handle().number)
        data.value = value
        return data

    def outside(self, task: "Task[Any]") -> None:
        """Lets a task wait for one more input from outside, such as a message or a timer.

        The task does not run before :meth:`release` was called once for each of them. A function of
        a task may call this while it runs, for a task that waits for its own.

        Raises:
            ValueError: the task is of another pool.
            Refused: ``WrongLife`` if the task has begun, or if the pool runs and the task is ready;
                ``HistoryFull`` if it awaits 1,048,576 of them; ``Stopped`` if the pool has stopped.
        """
        team, number = self._open_team(), self._number_of(task)
        _check(team, library.gerfmuod_team_outside(team, number), number)

    def release(self, task: "Task[Any]") -> None:
        """Reports that one input from outside of a task is there.

        If it cannot come, release it all the same, and let the task's function raise an exception;
        or call :meth:`stop`.

        Raises:
            ValueError: the task is of another pool.
            Refused: ``WrongLife`` if the task awaits none; ``Stopped`` if the pool has stopped.
        """
        team, number = self._open_team(), self._number_of(task)
        _check(team, library.gerfmuod_team_release(team, number), number)

    def run(self, threads: Optional[int] = None, progress: Optional[Callable[[int, int], Any]] = None) -> None:
        """Runs all tasks, and returns when they are done.

        Args:
            threads: the number of threads that call functions, while the caller waits. The default
                is the number of processors. Functions run in parallel as far as they release the
                interpreter's lock, as those of numpy do.
            progress: called by the caller with the numbers of tasks that are done and of all, at most
                every 0.1 seconds, and after a run that raised nothing. What it raises stops the pool.

        Raises:
            ValueError: there are fewer than 1 threads.
            Refused: ``NotStarted`` if the system started too few threads, ``Ended`` if the pool has
                run, ``HistoryFull`` if it is traced and has too many tasks, ``NoMemory``, and
                ``Stopped`` if it was stopped.

        An exception of a task's function stops the pool: functions that run are finished, no
        further one begins, and ``run`` raises that exception, from Python 3.11 on with a note for
        each task that failed. :attr:`failed` is the task. An interrupt from the keyboard does the same.
        """
        count = _processors() if threads is None else _number("threads", threads, 1)

        def report() -> None:
            if progress:
                with self._free_lock():  # no task is added between the two numbers
                    total, left = len(self), self.left
                progress(total - left, total)

        run = _Run(self._open_team(), self._jobs, self._keeps_bodies, count, report)
        with _interrupts(run.fail):
            if not self._running.acquire(blocking=False):
                raise RuntimeError("the pool runs")
            try:
                with self._free_lock():
                    pass  # a call that began before has ended
                if self._crew.process != os.getpid():  # a child of fork() has none of the threads
                    self._crew = _Crew()
                run.run(self._crew)
            finally:
                self._running.release()
        if run.errors:
            error, failed = run.errors[0]
            run.errors.clear()
            self._failed = failed or self._failed
            try:
                raise error
            finally:
                del error, failed, run, self  # the exception refers to this frame
        _check(run.team, library.gerfmuod_team_fault(run.team))
        report()

    async def run_async(self, threads: Optional[int] = None, progress: Optional[Callable[[int, int], Any]] = None) -> None:
        """:meth:`run`, by a thread of the loop's executor, while other coroutines go on. If it is cancelled, the pool stops."""
        run = asyncio.ensure_future(asyncio.get_running_loop().run_in_executor(None, self.run, threads, progress))
        try:
            await asyncio.shield(run)
        except asyncio.CancelledError:
            self.stop()
            await asyncio.wait([run])
            run.exception()  # Refused, since it was stopped
            raise

    @property
    def left(self) -> int:
        """The number of tasks that are not done, such as for a line of progress."""
        return int(library.gerfmuod_team_left(self._open_team()))

    def stop(self) -> None:
        """Ends the run: functions that run are finished, no further one begins, and ``run`` raises ``Refused``."""
        library.gerfmuod_team_stop(self._open_team(), NONE)

    @property
    def failed(self) -> "Optional[Task[Any]]":
        """The task whose function raised the exception that :meth:`run` raised, or None."""
        return self._failed

    def again(self) -> None:
        """Prepares the same graph for one more run, after one that ended.

        The results of that run are forgotten. Inputs from outside have to be announced again, by
        :meth:`outside` after this call.

        Raises:
            Refused: ``WrongLife`` if the pool has not run, or if tasks were added in the run;
                ``Stopped`` if it was stopped.
        """
        self._prepare(library.gerfmuod_team_again)

    def reset(self) -> None:
        """Prepares the same graph for one more run, also after one that was stopped or whose function raised.

        All results are forgotten, and the tasks count as never run.

        Raises:
            Refused: ``WrongLife`` if tasks were added in the run.
        """
        self._prepare(library.gerfmuod_team_reset)
        self._failed = None

    def clear(self) -> None:
        """Makes the pool empty again, for a new description; its threads stay.

        The tasks and handles of before are then of no pool. Their results stay.
        """
        interrupts: List[BaseException] = []
        with self._at_rest() as team, _interrupts(interrupts.append):
            _check(team, library.gerfmuod_team_clear(team))
            self._identity, self._failed, self._newest.value = object(), None, NONE
            self._jobs.clear()
        for interrupt in interrupts:
            raise interrupt

    def _prepare(self, call: Callable[[Team], int]) -> None:
        with self._at_rest() as team:
            if not self._keeps_bodies:
                raise RuntimeError("a pool runs again only if it was opened with keep_bodies=True")
            _check(team, call(team))
            for job in filter(None, self._jobs):
                job[0]._end(None, None, False)

    def trace(self) -> str:
        """Returns the events of the run as a trace, which ``tp audit`` judges; empty without ``traced``."""
        with self._at_rest() as team:
            length = library.gerfmuod_team_trace(team, None, 0)
            buffer = ctypes.create_string_buffer(length + 1)
            library.gerfmuod_team_trace(team, buffer, length + 1)
            return buffer.value.decode()

    def record(self, slices: int = 65536) -> None:
        """Records when functions begin and end, and when threads wait, in each later run.

        Args:
            slices: how many functions and waits each thread keeps, the newest; 0 ends recording.

        Raises:
            Refused: ``WrongLife`` if the pool has a task; ``NoMemory``.
        """
        number = _number("slices", slices)
        with self._at_rest() as team:
            _check(team, library.gerfmuod_team_record(team, number))

    def profile(self, path: Path) -> None:
        """Writes the last run to a file, in Chrome's trace event format.

        Raises:
            OSError: the file cannot be opened.
            Refused: ``WrongLife`` if no run was recorded, ``NoMemory``, and ``NotWritten`` if not
                all of the file could be written.
        """
        self._write(library.gerfmuod_team_profile, path)

    def summary(self, path: Path) -> None:
        """Writes which share of its time each thread spent on what. It is refused as :meth:`profile`."""
        self._write(library.gerfmuod_team_summary, path)

    def close(self) -> None:
        """Frees the pool. Results may still be used. A pool that is no longer referenced is closed as well."""
        if self._team is not None:
            with self._at_rest():
                self._team, self._jobs = None, []
        self._crew.end()

    def __enter__(self) -> "Pool":
        return self

    def __exit__(self, *_: object) -> None:
        self.close()

    def __len__(self) -> int:
        """Returns the number of tasks that were described."""
        return (self._newest.value + 1) & NONE

    def _write(self, write: Callable[..., int], path: Path) -> None:
        with self._at_rest() as team, open(path, "wb") as file:
            copy = os.dup(file.fileno())
            stream = library.fdopen(copy, b"w")
            if not stream:
                os.close(copy)
                raise MemoryError
            try:
                _check(team, write(team, stream))
            finally:
                library.fclose(stream)

    def _number_of(self, it: "Union[Task[Any], Handle]", kind: type = Task) -> int:
        if not isinstance(it, kind):
            raise TypeError(f"{it!r} is no {kind.__name__.lower()}")
        if it._owner is not self._identity:
            raise ValueError(f"the {kind.__name__.lower()} is of another pool")
        return it.number

    def _open_team(self) -> Team:
        if self._team is None:
            raise ValueError("the pool is closed")
        return self._team

    @contextlib.contextmanager
    def _at_rest(self) -> Iterator[Team]:
        """Lets no run begin while it is entered."""
        with self._free_lock():
            if self._running.locked():
                raise RuntimeError("the pool runs")
            yield self._open_team()

    def _free_lock(self) -> Any:
        """Returns the lock. If an interrupt came between the end of a with statement and its release, this thread releases it."""
        while self._lock._is_owned():
            self._lock.release()
        return self._lock


def _check(team: Team, refused: int, task: int = NONE) -> None:
    """Raises an exception if a call about a task, or about none, was refused."""
    if refused:
        is_fault = refused == library.gerfmuod_team_fault(team)
        raise Refused(refused, library.gerfmuod_team_failed(team) if is_fault else task)


def _value(argument: Any) -> Any:
    return argument.result() if isinstance(argument, Task) else argument.data.value if isinstance(argument, Accessed) else argument


def _processors() -> int:
    """Returns the number of processors that this process may use."""
    return len(os.sched_getaffinity(0)) if hasattr(os, "sched_getaffinity") else os.cpu_count() or 1


def _number(name: str, value: int, least: int = 0) -> int:
    number = operator.index(value)
    if not least <= number <= NONE:
        raise ValueError(f"{name} is {number}")
    return number
