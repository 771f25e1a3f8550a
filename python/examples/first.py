"""Two tasks, and a third one that waits for both: the Python program of docs/YOUR-BODIES.md."""
import math
import operator

from gerfmuod import Pool

pool = Pool()
a = pool.task(math.sqrt, 2.0)
b = pool.task(math.exp, 1.0)
c = pool.task(operator.mul, a, b)
pool.run(threads=4)
print(f"{c.result():.6f}")  # 3.844231
