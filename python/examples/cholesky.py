"""Cholesky in tiles, against numpy: OPENBLAS_NUM_THREADS=1 cholesky.py [ORDER TILE THREADS]"""
import sys
import time

import numpy as np
from gerfmuod import Pool, read, update
from scipy.linalg import solve_triangular

order, tile, threads = map(int, sys.argv[1:]) if sys.argv[1:] else (1024, 128, 4)
count = order // tile


def factor(tile):
    tile[:] = np.linalg.cholesky(tile)


def solve(below, diagonal):
    below[:] = solve_triangular(diagonal, below.T, lower=True, check_finite=False).T


def subtract(target, left, right):
    target -= left @ right.T


matrix = np.random.default_rng(1).random((order, order))
matrix = matrix + matrix.T + 2 * order * np.eye(order)
rows = [matrix[i * tile:(i + 1) * tile] for i in range(count)]
pool = Pool()
tiles = {(i, j): pool.data(rows[i][:, j * tile:(j + 1) * tile].copy()) for i in range(count) for j in range(i + 1)}
for k in range(count):
    pool.task(factor, update(tiles[k, k]))
    for i in range(k + 1, count):
        pool.task(solve, update(tiles[i, k]), read(tiles[k, k]), priority=1)
    for i in range(k + 1, count):
        for j in range(k + 1, i + 1):
            pool.task(subtract, update(tiles[i, j]), read(tiles[i, k]), read(tiles[j, k]), priority=2)
began = time.perf_counter()
pool.run(threads)
took = (time.perf_counter() - began) * 1e3
wanted = np.linalg.cholesky(matrix)
parts = {(i, j): wanted[i * tile:, j * tile:][:tile, :tile] for i, j in tiles}
distance = max(abs(parts[at] - it.value).max() for at, it in tiles.items())
print(f"{len(pool)} tasks, {took:.1f} ms, differs from numpy's by {distance:.1e}")
sys.exit(0 if distance < 1e-9 else 1)
