"""1,000 runs that wait for an input that never comes, until each is interrupted at a random time, as by Ctrl-C."""
import os
import random
import signal
import threading
import time

from gerfmuod import Pool


def interrupt(delay):
    time.sleep(delay)
    os.kill(os.getpid(), signal.SIGINT)


signal.signal(signal.SIGINT, signal.default_int_handler)
draw, interrupted = random.Random(1), 0
for _ in range(1000):
    sender = threading.Thread(target=interrupt, args=(draw.random() * 0.003,))
    try:
        sender.start()
        with Pool() as pool:
            first = pool.task(time.sleep, 0.0002)
            pool.outside([pool.task(bytes, 1000, after=[first]) for _ in range(10)][-1])
            pool.run(3)
    except KeyboardInterrupt:
        interrupted += 1
    sender.join()
print(f"{interrupted} of 1000 runs were interrupted")
