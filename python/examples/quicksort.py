"""Quicksort whose tasks make tasks, compared with sorted(). Arguments: LENGTH THREADS."""
import random
import sys

from gerfmuod import Pool

length, threads = (int(argument) for argument in sys.argv[1:3])
values = random.Random(1).sample(range(10 * length), length)
wanted = sorted(values)
pool = Pool()


def sort(start: int, end: int) -> None:
    """Sorts a part of the list: moves what is less than a value to the left, and makes a task of each side."""
    if end - start < 2:
        return
    pivot, part = values[(start + end) // 2], values[start:end]
    less, more = [it for it in part if it < pivot], [it for it in part if it > pivot]
    values[start:end] = [*less, pivot, *more]
    pool.task(sort, start, start + len(less))
    pool.task(sort, end - len(more), end)


pool.task(sort, 0, length)
pool.run(threads)
print(f"{len(pool)} tasks, {'sorted' if values == wanted else 'NOT SORTED'}")
