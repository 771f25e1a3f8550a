"""Tests of the package: results, order, threads, refusals, misuse, exceptions, interrupts, traces, recorded times."""
import asyncio
import contextlib
import errno
import functools
import gc
import json
import os
import pickle
import random
import signal
import subprocess
import sys
import tempfile
import threading
import time
import unittest
import unittest.mock
import weakref

from gerfmuod import Pool, Refused, Task, read, update, write


class Case(unittest.TestCase):
    def refused(self, name, call, *arguments, task=None):
        with self.assertRaises(Refused) as caught:
            call(*arguments)
        self.assertEqual((caught.exception.name, caught.exception.task), (name, task))
        self.assertTrue(str(caught.exception).startswith(name))


class Results(Case):
    def test_arguments_that_are_tasks_become_results(self):
        pool = Pool()
        a = pool.task(lambda: 2)
        b = pool.task(lambda x, y: x + y, a, 3)
        c = pool.task(lambda x, y, z: (x, y, z), a, z=b, y="y")
        pool.run(threads=3)
        self.assertEqual((a.result(), b.result(), c.result(), pool.failed), (2, 5, (2, "y", 5), None))

    def test_a_result_is_there_from_the_run_on(self):
        with Pool() as pool:
            a = pool.task(lambda: "kept")
            self.assertRaises(RuntimeError, a.result)
            self.assertEqual((repr(a), type(a), a.done()), ("<Task 0>", Task, False))
            pool.run(1)
        self.assertEqual((a.result(), a.exception(), a.done(), repr(a)), ("kept", None, True, "<Task 0, done>"))

    def test_exceptions_of_tasks_that_fail_at_a_time(self):
        pool, meeting = Pool(), threading.Barrier(2, timeout=10)
        tasks = [pool.task(lambda key: (meeting.wait(), {}[key]), key) for key in "ab"]
        with self.assertRaises(KeyError) as caught:
            pool.run(2)
        self.assertIs(caught.exception, pool.failed.exception())
        self.assertRaisesRegex(KeyError, "b", tasks[1].result)
        notes = [f"task {number} of the pool raised KeyError('{key}')" for number, key in enumerate("ab")]
        self.assertEqual(sorted(getattr(caught.exception, "__notes__", notes)), notes)

    def test_a_pool_that_has_run_is_freed_at_once(self):
        for function in (int, lambda: 1 // 0):
            pool = Pool()
            pool.task(int, task := pool.task(function))
            with contextlib.suppress(ZeroDivisionError):
                pool.run(2)
            team = weakref.ref(pool._team)
            del pool
            self.assertEqual((team(), task.done()), (None, True))

    def test_functions_arguments_and_results_are_dropped_unless_they_are_kept(self):
        for keeps in (False, True):
            pool, function, result = Pool(keep_bodies=keeps), (lambda _: None), threading.Event()
            seen = [*map(weakref.ref, (function, result))]
            last = pool.task(lambda seen=seen: [bool(it()) for it in seen], after=[pool.task(function, pool.task(lambda it: it, result))])
            del function, result
            pool.run(2)
            self.assertEqual(last.result(), [keeps, keeps])


class Handles(Case):
    def test_random_programs_give_the_sequential_result(self):
        draw = random.Random(3)
        for _ in range(1000):
            pool, expected = Pool(), [[0] for _ in range(4)]
            data = [pool.data([0]) for _ in expected]
            for number in range(12):
                modes = {place: draw.choice((read, write, update)) for place in draw.sample(range(4), draw.randrange(4))}

                def step(number, *values, modes=(*modes.values(),)):
                    result = hash((number, *(value[0] for value, mode in zip(values, modes) if mode is not write)))
                    for place, value in enumerate(value for value, mode in zip(values, modes) if mode is not read):
                        value[0] = result + place

                step(number, *(expected[place] for place in modes))
                handles = {f"{mode.__name__}s": [data[at] for at in modes if modes[at] is mode] for mode in (read, write, update)}
                values, accesses = draw.choice((([data[at].value for at in modes], handles), ([modes[at](data[at]) for at in modes], {})))
                pool.task(step, number, *values, **accesses, priority=draw.randrange(4))
            pool.run(3)
            self.assertEqual([it.value for it in data], expected)

    def test_handles_beside_tasks(self):
        pool, order = Pool(), []
        data = pool.handle()
        pool.task(order.append, 1, updates=[data], priority=3)
        pool.task(order.append, 2, reads=[data])
        first = pool.task(order.append, 0, priority=2)
        self.assertRaises(ValueError, pool.task, int, after=[first], reads=[data])
        self.assertRaises(ValueError, pool.task, int, first, reads=[data])
        pool.run(1)
        self.assertEqual((order, repr(data), data.number), ([0, 1, 2], "<Handle 0>", 0))

    def test_what_is_no_handle_of_the_pool(self):
        pool = Pool()
        self.assertRaises(ValueError, pool.task, int, reads=[Pool().handle()])
        self.assertRaises(TypeError, pool.task, int, writes=[pool.task(int)])
        self.assertRaises(TypeError, pool.task, int, after=[pool.handle()])
        for error, argument in ((ValueError, read(Pool().data())), (TypeError, update(pool.handle())), (TypeError, write(3))):
            self.assertRaises(error, pool.task, int, x=argument)
        self.assertEqual((len(pool), repr(pool.data(3))), (1, "<Data 2>"))


class Order(Case):
    def test_random_graphs_run_in_order_and_once(self):
        draw = random.Random(1)
        for threads in range(1, 9):
            pool, ended, tasks, inputs = Pool(), [], [], []
            for t in range(100):
                mine = [draw.choice(tasks) for _ in range(draw.randrange(4))] if tasks else []
                inputs.append([it.number for it in mine])
                tasks.append(pool.task(ended.append, t, after=mine, priority=draw.randrange(4)))
            pool.run(threads)
            self.assertEqual(sorted(ended), list(range(100)))
            place = {t: k for k, t in enumerate(ended)}
            self.assertTrue(all(place[s] < place[t] for t, mine in enumerate(inputs) for s in mine))

    def test_a_lower_priority_number_runs_first(self):
        pool, ended = Pool(), []
        for number in (3, 0, 2, 1):
            pool.task(ended.append, number, priority=number)
        pool.run(1)
        self.assertEqual(ended, [0, 1, 2, 3])

    def test_the_default_is_a_thread_for_each_processor(self):
        barrier, pool = threading.Barrier(3), Pool()
        for _ in range(3):
            pool.task(barrier.wait, 60)
        with unittest.mock.patch("os.sched_getaffinity", lambda _: {0, 1, 2}):
            pool.run()

    def test_tasks_run_on_several_threads(self):
        pool, meeting = Pool(), threading.Barrier(3)
        seconds = pool.data(10)
        for _ in range(3):
            pool.task(meeting.wait, timeout=read(seconds))  # passes when three tasks run at a time
        pool.run(threads=3)


class Misuse(Case):
    def test_arguments(self):
        pool, ran = Pool(), []
        task, other = pool.task(ran.append, 0), Pool().task(int)
        for error, call, *arguments in (
            *((TypeError, lambda it: pool.task(int, after=it), it) for it in ([0], [[task]], "ab", [None], task, 7)),
            *((TypeError, lambda it: pool.task(int, releases=it), it) for it in (1.0, "1", None)),
            *((ValueError, lambda it: pool.task(int, releases=it), it) for it in (-1, 2**32)),
            *((error, pool.run, it) for error, it in ((ValueError, 0), (ValueError, -1), (TypeError, 2.0), (TypeError, "2"))),
            *((TypeError, call, it) for call in (pool.outside, pool.release) for it in (None, 0, [task])),
            *((ValueError, call, other) for call in (pool.outside, pool.release, lambda it: pool.task(int, it))),
            *((ValueError, call) for call in (lambda: pool.task(int, x=other), lambda: pool.task(int, after=[other]))),
            *((TypeError, *call) for call in ((Pool, 3), (pool.task, 3), (pool.task,), (pool.record, 1.5))),
        ):
            self.assertRaises(error, call, *arguments)

        def use():  # before the run, and in it
            self.refused("BadSpec", lambda: pool.task(int, priority=4))
            self.refused("HistoryFull", lambda: pool.task(int, releases=2**21))
            pool.task(ran.append, len(pool))

        use()
        pool.task(use)
        pool.run(2)
        self.assertEqual((len(pool), sorted(ran), pool.failed), (4, [0, 1, 3], None))

    def test_a_pool_runs_once(self):
        pool = Pool()
        pool.task(int)
        pool.run(1)
        self.refused("Ended", pool.run, 1)
        self.refused("Ended", pool.task, int)
        self.refused("WrongLife", pool.record)
        self.assertRaisesRegex(RuntimeError, "keep_bodies", pool.again)

    def test_a_closed_pool(self):
        pool = Pool()
        task = pool.task(int)
        pool.close()
        pool.close()
        calls = (pool.run, pool.stop, pool.again, pool.clear, pool.trace, pool.record, lambda: pool.task(int), lambda: pool.release(task))
        for call in (*calls, lambda: pool.outside(task), lambda: pool.profile(os.devnull), lambda: pool.task(int, after=[task])):
            self.assertRaises(ValueError, call)
        self.assertEqual(len(pool), 1)

    def test_a_pool_that_runs(self):
        pool, raised = Pool(), []

        def use(calls):
            for call in calls:
                self.assertRaisesRegex(RuntimeError, "the pool runs", call)
                raised.append(call)

        calls = [pool.run, pool.close, pool.again, pool.clear, pool.trace, pool.record, lambda: pool.summary(os.devnull)]
        waiting = pool.task(int)
        pool.outside(waiting)
        pool.task(use, calls)
        runner = threading.Thread(target=pool.run, args=(2,))
        runner.start()
        while len(raised) < len(calls):
            pass
        use(calls)
        pool.release(waiting)
        runner.join()
        self.assertEqual(raised, 2 * calls)
        pool.close()

    def test_refusals_can_be_pickled(self):
        for it in (Refused(5, 3), Refused(66)):
            copy = pickle.loads(pickle.dumps(it))
            self.assertEqual((type(copy), str(copy), vars(copy)), (Refused, str(it), vars(it)))


class Growth(Case):
    def test_tasks_make_tasks(self):
        for threads in (1, 4):
            pool, leaves = Pool(traced=True, keep_bodies=True), []

            def split(depth, pool=pool, leaves=leaves):
                leaves.extend([0] if depth == 0 else [])
                for _ in range(2 if depth else 0):
                    pool.task(split, depth - 1)

            pool.task(split, 7)
            pool.run(threads)
            self.assertEqual((len(leaves), len(pool)), (128, 255))
            self.assertEqual(pool.trace().count("done"), 255)
            self.refused("WrongLife", pool.again)

    def test_a_new_task_takes_the_results_of_others(self):
        pool = Pool()
        early = pool.task(int, "3")
        new = pool.task(lambda: pool.task(lambda a, b: a + b, early, pool.task(int, "4")), after=[early])
        pool.run(2)
        self.assertEqual(new.result().result(), 7)

    def test_a_task_waits_for_the_results_of_tasks_to_come(self):
        pool, parts = Pool(), []
        total = pool.task(lambda: sum(parts), releases=4)
        pool.task(lambda: [pool.task(lambda number: deliver(pool, total, parts, number), number) for number in range(4)])
        pool.run(3)
        self.assertEqual(total.result(), 6)


def deliver(pool, task, data, value):
    """What a task or another thread does: it writes a value, and releases the task that waits for it."""
    data.append(value)
    pool.release(task)


class Outside(Case):
    def test_a_task_waits_for_each_of_its_inputs_and_again(self):
        pool, data = Pool(keep_bodies=True), []
        first = pool.task(lambda: sorted(data))  # a timer may be late
        last = pool.task(len, first)
        for run in range(3):
            data.clear()
            for k in (1, 2):
                pool.outside(first)
                threading.Timer(0.02 * k, deliver, (pool, first, data, k)).start()
            pool.run(2 + run)
            self.assertEqual((first.result(), last.result()), ([1, 2], 2))
            self.refused("WrongLife", pool.release, first, task=0)
            self.refused("WrongLife", pool.outside, last, task=1)
            pool.again()
            self.assertRaises(RuntimeError, last.result)

    def test_a_function_announces_an_input_of_a_task_that_waits_for_it(self):
        pool, data = Pool(), []

        timer = threading.Timer(0.02, lambda: deliver(pool, last, data, "there"))
        last = pool.task(data.__getitem__, 0, after=[pool.task(lambda: pool.outside(last) or timer.start())])
        pool.run(2)
        self.assertEqual(last.result(), "there")

    def test_an_exception_and_a_stop_end_the_wait(self):
        self.addCleanup(signal.signal, signal.SIGALRM, signal.signal(signal.SIGALRM, lambda *_: {}["alarm"]))
        alarm = functools.partial(signal.setitimer, signal.ITIMER_REAL, 0.01)
        for function, error in ((lambda: 1 // 0, ZeroDivisionError), (lambda: pool.stop(), Refused), (alarm, KeyError)):
            pool = Pool(keep_bodies=True)
            waiting = pool.task(int, releases=1)
            bad = pool.task(function)
            self.assertRaises(error, pool.run, 3)
            self.assertIs(pool.failed, bad if error is ZeroDivisionError else None)
            self.assertRaises(RuntimeError, waiting.result)
            for call in (pool.run, pool.again, lambda: pool.release(waiting), lambda: pool.task(int)):
                self.refused("Stopped", call, task=pool.failed and 1)


def threads_are(count):
    """Whether pools have soon this number of threads: those of one that is no longer referenced end beside the caller."""
    end = time.monotonic() + 60
    while sum(it.name == "gerfmuod" for it in threading.enumerate()) != count:
        if time.monotonic() > end:
            return False
        time.sleep(0.001)
    return True


class Interrupts(Case):
    def setUp(self):
        # (a shell lets its background processes ignore interrupts)
        self.addCleanup(signal.signal, signal.SIGINT, signal.signal(signal.SIGINT, signal.default_int_handler))

    def interrupted(self, call):
        """Calls a function with an interrupt at the first line of the package, then at the second one, and so on. Yields after each."""
        left, at = 0, 0

        def trace(frame, event, _):
            nonlocal left
            left -= event == "line"
            if left == 0 and event == "line":
                signal.raise_signal(signal.SIGINT)
            return trace if os.path.basename(frame.f_code.co_filename) == "_pool.py" else None

        while left <= 0:
            at += 1
            left = at
            with contextlib.suppress(KeyboardInterrupt):
                try:
                    sys.settrace(trace)
                    call()
                finally:
                    sys.settrace(None)
            yield at
        self.assertGreater(at, 10)

    def test_a_task_that_is_interrupted_is_there_or_not(self):
        pool, ran, count = Pool(), [], 0
        for count in self.interrupted(lambda: pool.task(ran.append, "interrupted")):
            pool.task(ran.append, count)
        pool.task(pool.task, ran.append, count + 1)
        pool.run(1)
        self.assertEqual([it for it in ran if it != "interrupted"], list(range(1, count + 2)))
        self.assertEqual(len(ran) + 1, len(pool))

    def test_a_run_that_is_interrupted_ends(self):
        def run():
            with Pool() as pool:
                first = pool.task(int)
                pool.task(int, first)
                pool.run(2)

        gc.collect()
        for _ in self.interrupted(run):
            self.assertEqual((signal.getsignal(signal.SIGINT), threads_are(0)), (signal.default_int_handler, True))

    def test_a_clear_that_is_interrupted(self):
        pool, ran = Pool(), []
        for count in self.interrupted(pool.clear):
            pool.task(ran.append, count)
            pool.clear()
            for _ in range(count % 3):
                pool.task(int)
        self.assertEqual((ran, pool.left), ([], len(pool)))
        pool.run(1)

    def test_runs_that_are_interrupted_at_random_times(self):
        command = [sys.executable, "-X", "faulthandler", os.path.join(os.path.dirname(__file__), "interrupted.py")]
        environment = {**os.environ, "MALLOC_PERTURB_": "165"}  # fills memory that was freed
        result = subprocess.run(command, env=environment, stdout=subprocess.PIPE, stderr=subprocess.STDOUT, timeout=900)
        self.assertEqual((result.returncode, result.stdout), (0, b"1000 of 1000 runs were interrupted\n"))


class Threads(Case):
    def setUp(self):
        gc.collect()
        self.assertTrue(threads_are(0))

    def test_threads_stay_until_the_pool_is_closed(self):
        seen = set()
        with Pool(keep_bodies=True) as pool:
            for _ in range(20):
                pool.task(lambda: seen.add(threading.current_thread()))
            for count in (2, 1, 2, 2):
                pool.run(count)
                pool.again()
            self.assertTrue(threads_are(2) and len(seen) <= 2)
            pool.run(3)
            self.assertTrue(threads_are(3))
        self.assertTrue(threads_are(0) and not any(it.is_alive() for it in seen))

    def test_threads_end_with_a_pool_that_is_no_longer_referenced(self):
        for has_cycle in (False, True):
            pool = Pool()
            pool.cycle = pool if has_cycle else None
            pool.task(int)
            pool.run(3)
            self.assertTrue(threads_are(3))
            del pool
            gc.collect()
            self.assertTrue(threads_are(0))

    def test_the_interpreter_ends_while_threads_wait(self):
        lines = "from gerfmuod import Pool", "pool = Pool()", "pool.cycle = pool", "pool.task(print, 'ran')", "pool.run(3)"
        result = subprocess.run([sys.executable, "-c", "\n".join(lines)], stdout=subprocess.PIPE, stderr=subprocess.STDOUT, timeout=300)
        self.assertEqual((result.returncode, result.stdout), (0, b"ran\n"))

    @unittest.skipUnless(hasattr(os, "fork"), "no fork")
    def test_a_child_has_threads_of_its_own(self):
        pool = Pool(keep_bodies=True)
        task = pool.task(os.getpid)
        pool.run(2)
        pool.again()
        child = os.fork()
        if not child:
            with contextlib.suppress(BaseException):
                signal.alarm(300)
                pool.run(2)
                os._exit(task.result() != os.getpid())
            os._exit(2)
        self.assertEqual(os.waitpid(child, 0), (child, 0))
        pool.run(2)
        self.assertEqual(task.result(), os.getpid())

    def test_other_graphs_on_the_same_threads(self):
        pool, threads = Pool(), set()
        for number in range(100):
            data = pool.data(number)
            tasks = [pool.task(lambda it: threads.add(threading.get_ident()) or it + 1, update(data)) for _ in range(5)]
            last = pool.task(lambda: 1 // (number % 3), updates=[data])
            with contextlib.suppress(ZeroDivisionError):
                pool.run(2)
            self.assertEqual(pool.failed, None if number % 3 else last)
            pool.clear()
            self.assertEqual((len(pool), pool.left, pool.failed, tasks[-1].result()), (0, 0, None, number + 1))
            self.assertRaises(ValueError, pool.task, int, after=tasks)
            self.assertRaises(ValueError, pool.task, int, reads=[data])
        self.assertTrue(threads_are(2) and len(threads) <= 2)


class Again(Case):
    def test_a_graph_is_reset_after_a_failure_and_a_stop(self):
        pool, fails, seen = Pool(keep_bodies=True), [True], []
        first = pool.task(seen.append, 1)
        last = pool.task(lambda: 1 // (not fails[0]), after=[first])
        self.assertRaises(ZeroDivisionError, pool.run, 2)
        self.assertEqual((pool.failed, pool.left), (last, 1))
        self.refused("Stopped", pool.again, task=last.number)
        pool.reset()
        self.assertEqual((pool.failed, pool.left, first.done(), last.done()), (None, 2, False, False))
        fails[0] = False
        pool.run(2)
        self.assertEqual((last.result(), pool.left, seen), (1, 0, [1, 1]))
        pool.reset()
        pool.task(pool.stop)
        self.refused("Stopped", pool.run, 1)
        pool.reset()

    def test_a_run_beside_coroutines(self):
        pool, gate = Pool(), threading.Event()
        waits = pool.task(gate.wait)

        async def run_and_set():
            run = asyncio.ensure_future(pool.run_async(2))
            await asyncio.sleep(0.01)
            gate.set()
            await run
            return waits.result()

        self.assertTrue(asyncio.run(run_and_set()))

    def test_a_cancelled_run_stops(self):
        pool, gate = Pool(keep_bodies=True), threading.Event()
        pool.task(gate.wait, after=[pool.task(gate.wait)])

        async def run_and_cancel():
            run = asyncio.ensure_future(pool.run_async(1))
            await asyncio.sleep(0.01)
            run.cancel()
            await asyncio.sleep(0.01)
            gate.set()
            await run

        self.assertRaises(asyncio.CancelledError, asyncio.run, run_and_cancel())
        self.assertEqual(pool.left, 2)
        pool.reset()
        pool.run(1)

    def test_the_caller_reports_at_most_every_100_ms_and_at_the_end(self):
        pool, gate, calls = Pool(), threading.Event(), []
        pool.task(gate.wait, after=[pool.task(lambda: pool.task(int))])

        def progress(*numbers):
            calls.append((numbers, threading.get_ident(), time.monotonic()))
            if len(calls) > 2 and numbers == (2, 3):
                gate.set()

        pool.run(2, progress)
        numbers, callers, times = zip(*calls)
        self.assertEqual((numbers[-1], sorted(numbers), {*callers}), ((3, 3), [*numbers], {threading.get_ident()}))
        self.assertGreaterEqual(min(b - a for a, b in zip(times, times[1:-1])), 0.099)

    def test_an_exception_of_the_callback_stops_the_pool(self):
        pool = Pool()
        ran = [pool.task(time.sleep, 0.001) for _ in range(1000)]
        self.assertRaises(KeyError, pool.run, 1, lambda *_: {}["x"])
        self.assertEqual((pool.failed, ran[-1].done()), (None, False))


class Traces(Case):
    def test_a_pool_without_a_trace_runs_as_one_with_it(self):
        for traced in (True, False):
            with Pool(traced=traced, keep_bodies=True) as pool:
                numbers = [pool.task(int, place) for place in range(20)]
                total = pool.task(lambda *all_of_them: sum(all_of_them), *numbers)
                for _ in range(2):
                    pool.run(2)
                    self.assertEqual(total.result(), 190)
                    lines = pool.trace().splitlines()
                    self.assertEqual(lines[:2], ["trace 1", "nodes 1"] if traced else [])
                    self.assertEqual((lines.count("begin 20"), lines.count("done 20")), (traced, traced))
                    pool.again()


class Times(Case):
    def test_a_recorded_run_has_each_task_once(self):
        pool = Pool()
        self.refused("WrongLife", pool.profile, os.devnull)
        pool.record()
        first = pool.task(int)
        for _ in range(20):
            pool.task(int, after=[first])
        pool.run(3)
        with tempfile.TemporaryDirectory() as folder:
            path = os.path.join(folder, "events.json")
            pool.profile(path)
            with open(path, encoding="utf-8") as file:
                events = json.load(file)["traceEvents"]
            tasks = [it["args"]["task"] for it in events if it["ph"] == "X" and it["cat"] == "task"]
            self.assertEqual(sorted(tasks), list(range(21)))
            pool.summary(path)
            with open(path, encoding="utf-8") as file:
                self.assertEqual(len(file.readlines()), 5)
            with self.assertRaises(OSError) as caught:
                pool.profile(folder)
            self.assertEqual((caught.exception.errno, caught.exception.filename), (errno.EISDIR, folder))
