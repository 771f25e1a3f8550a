"""The overhead of a function: many empty ones by gerfmuod.Pool, and by concurrent.futures.ThreadPoolExecutor.

    functions.py COUNT ROUNDS WAY..     a WAY is pool:T or executor:T, with T threads

In each round each way calls COUNT functions. For each way it prints `WAY COUNT T1 T2 ..` with milliseconds; a first round is not counted.
"""
import sys
import time
from concurrent.futures import ThreadPoolExecutor

from gerfmuod import Pool


def one():
    return 1


def by_pool(count, threads):
    with Pool() as pool:
        tasks = [pool.task(one) for _ in range(count)]
        pool.run(threads)
    return tasks


def by_executor(count, threads):
    with ThreadPoolExecutor(threads) as executor:
        return [executor.submit(one) for _ in range(count)]


def main(count, rounds, *ways):
    times = {way: [] for way in ways}
    for _ in range(int(rounds) + 1):
        for way in ways:
            kind, threads = way.split(":")
            begin = time.perf_counter()
            tasks = {"pool": by_pool, "executor": by_executor}[kind](int(count), int(threads))
            times[way].append((time.perf_counter() - begin) * 1000)
            if sum(task.result() for task in tasks) != int(count):
                sys.exit(f"{way}: not each function was called")
    for way, own in times.items():
        print(way, count, *(f"{time:.4f}" for time in own[1:]))


if __name__ == "__main__":
    main(*sys.argv[1:])
