"""Task graphs on threads, scheduled by a proved pool; and a proved detector of the end of programs of several processes.

    >>> import math, operator
    >>> from gerfmuod import Pool
    >>> pool = Pool()
    >>> a = pool.task(math.sqrt, 2.0)
    >>> b = pool.task(math.exp, 1.0)
    >>> c = pool.task(operator.mul, a, b)     # waits for a and b, and gets their results
    >>> pool.run(threads=4)
    >>> round(c.result(), 6)
    3.844231

The package loads the shared object libgerfmuod.so.0, which `make lib` builds. It searches the path
in the environment variable GERFMUOD_LIBRARY; or else the folder of the package, lib/ of the
repository, and the library path of the system.
"""
from ._detector import Detector
from ._pool import Data, Handle, Pool, Task, read, update, write
from ._refused import Refused

__all__ = ["Data", "Detector", "Handle", "Pool", "Refused", "Task", "read", "update", "write"]
