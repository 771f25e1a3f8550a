"""A crawler in several processes, each of which owns a share of the pages. When is all crawled?

    python3 crawl.py [PROCESSES] [naive]

With `naive`, a process stops when its inbox was empty for 20 ms, as is often written: then pages are missing.
"""
import multiprocessing
import queue
import random
import sys
import time

from gerfmuod import Detector

PAGES = 400


def links(page):
    """Returns the pages that a page links to: a fixed random graph, in which page 0 reaches all."""
    chosen = random.Random(page)
    near = {place for place in (page * 2 + 1, page * 2 + 2) if place < PAGES}
    return near | {chosen.randrange(PAGES) for _ in range(3)}


def crawl(number, inboxes, results, is_naive):
    """Visits the pages of one process."""
    detector = Detector(number, len(inboxes), lambda to, control: inboxes[to].put(control))
    seen = set()

    def visit(page):
        if page in seen:
            return
        seen.add(page)
        time.sleep(random.uniform(0, 0.1) if page % 4 == 3 else 0)  # some pages are slow
        for link in links(page):
            detector.sent()
            inboxes[link % len(inboxes)].put(link)

    if number == 0:
        visit(0)
    detector.finish()
    while not detector.ended():
        try:
            message = inboxes[number].get(timeout=0.02)
        except queue.Empty:
            if is_naive:
                break
            continue
        if isinstance(message, bytes):
            detector.take(message)
        else:
            with detector.received():
                visit(message)
    results.put(len(seen))


def main():
    numbers = [int(word) for word in sys.argv[1:] if word.isdigit()]
    inboxes = [multiprocessing.Queue() for _ in range(numbers[0] if numbers else 4)]
    results = multiprocessing.Queue()
    arguments = [(number, inboxes, results, "naive" in sys.argv) for number in range(len(inboxes))]
    workers = [multiprocessing.Process(target=crawl, args=each, daemon=True) for each in arguments]
    for worker in workers:
        worker.start()
    print(f"{sum(results.get() for _ in workers)} of {PAGES} pages")


if __name__ == "__main__":
    main()
