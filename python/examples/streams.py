"""A tree of tasks in several processes that talk over asyncio's streams. When have all tasks run?

    python3 streams.py [PROCESSES]

Each task above the leaves sends three more, to processes drawn at random.
"""
import asyncio
import multiprocessing
import random
import socket
import sys

from gerfmuod import Detector

TASK, CONTROL = b"t", b"c"
DEPTH, TASKS = 6, 1093


async def work(number, listeners):
    """Runs the tasks that come to one process; returns how many."""
    writers = [(await asyncio.open_connection(*listener.getsockname()))[1] for listener in listeners]
    accepted = [listeners[number].accept()[0] for _ in listeners]
    # a stream is closed once its writer is lost, so both are kept
    incoming = [await asyncio.open_connection(sock=connection) for connection in accepted]
    detector = Detector(number, len(listeners), lambda to, control: writers[to].write(CONTROL + control))
    ran = 0

    def send(depth):
        detector.sent()  # first count, then send
        random.choice(writers).write(TASK + bytes([depth]))

    async def receive(reader):
        nonlocal ran
        while kind := await reader.read(1):
            if kind == CONTROL:
                detector.take(await reader.readexactly(56))
            else:
                depth = (await reader.readexactly(1))[0]
                with detector.received():
                    ran += 1
                    for _ in range(3 if depth else 0):
                        send(depth - 1)
            detector.ended()  # sends the control messages that are due

    async def wait_for_end():
        while not detector.ended():
            await asyncio.sleep(0.01)
        for writer in writers:
            writer.close()
            await writer.wait_closed()

    if number == 0:
        send(DEPTH)
    detector.finish()
    await asyncio.gather(wait_for_end(), *(receive(reader) for reader, _ in incoming))
    return ran


def run(number, listeners, results):
    results.put(asyncio.run(work(number, listeners)))


def main():
    listeners = [socket.create_server(("127.0.0.1", 0)) for _ in range(int((sys.argv[1:] or ["4"])[0]))]
    results = multiprocessing.Queue()
    workers = [multiprocessing.Process(target=run, args=(number, listeners, results)) for number in range(len(listeners))]
    for worker in workers:
        worker.start()
    print(f"{sum(results.get() for _ in workers)} of {TASKS} tasks")


if __name__ == "__main__":
    main()
