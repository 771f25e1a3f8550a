"""A tree of tasks over MPI, by mpi4py. When have all tasks run?

    mpirun -n 4 python3 mpi_tree.py

Each task above the leaves sends three more, to ranks drawn at random.
"""
import random

from mpi4py import MPI

from gerfmuod import Detector

TASK, CONTROL = 1, 2
DEPTH, TASKS = 6, 1093
world, status = MPI.COMM_WORLD, MPI.Status()
requests = []


def send(message, to, tag):
    requests[:] = [request for request in requests if not request.Test()]
    requests.append(world.isend(message, to, tag))


detector = Detector(world.rank, world.size, lambda to, control: send(control, to, CONTROL))


def send_task(depth):
    detector.sent()  # first count, then send
    send(depth, random.randrange(world.size), TASK)


if world.rank == 0:
    send_task(DEPTH)
detector.finish()
ran = 0
while not detector.ended():
    if not world.iprobe(status=status):
        continue
    message = world.recv(source=status.source, tag=status.tag)
    if status.tag == CONTROL:
        detector.take(message)
        continue
    with detector.received():
        ran += 1
        for _ in range(3 if message else 0):
            send_task(message - 1)
MPI.Request.Waitall(requests)
total = world.reduce(ran)
if world.rank == 0:
    print(f"{total} of {TASKS} tasks")
