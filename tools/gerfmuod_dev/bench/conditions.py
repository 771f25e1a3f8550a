"""The conditions of a series: the machine and the commit, whether it was at rest before, and what other programs used during it."""
import os
import platform
import re
import time

from .. import running
from ..repository import TOP, processors, text_of
from .rows import Origin

# the load average of a minute before a series, and the processors that others use during a measurement, at most
MOST_LOAD, MOST_OTHERS = 0.5, 0.15
# how many seconds the load average may take to fall again after a series
LONGEST_REST = 300


def used(line):
    """Returns the seconds of processor time of the first line of /proc/stat: what was used, and what the host took."""
    user, nice, system, _, _, interrupts, soft_interrupts, stolen = map(int, line.split()[1:9])
    return (user + nice + system + interrupts + soft_interrupts + stolen) / os.sysconf("SC_CLK_TCK")


def now():
    """Returns seconds: of a clock, of all processor time, and of that of this process and the programs that it ran to the end."""
    return time.monotonic(), used(text_of("/proc/stat")), sum(os.times()[:4])


def others(start, end):
    seconds, all_used, own_used = (after - before for before, after in zip(start, end))
    return round(max(all_used - own_used, 0.0) / seconds, 2)


def load_average():
    return round(os.getloadavg()[0], 2)


def faults(load, others_used=0.0):
    """Returns why the rows of a series are not to be trusted; an empty text if they are."""
    reasons = [f"the load average before was {load}"] * (load > MOST_LOAD)
    reasons += [f"others used {others_used} processors"] * (others_used > MOST_OTHERS)
    return "; ".join(reasons)


def seconds_to_rest():
    """Waits until the machine is at rest again. Returns how long that took, None if it takes too long."""
    start = time.monotonic()
    while os.getloadavg()[0] > MOST_LOAD:
        if time.monotonic() - start > LONGEST_REST:
            return None
        time.sleep(5)
    return round(time.monotonic() - start)


def first_line(*command):
    return running.run(command, cwd=TOP).out.decode().partition("\n")[0]


def origin_of(measurement, form, rows, seconds, load_average, others):
    changed = first_line("git", "status", "--porcelain", "--untracked-files=no", "--", "crates", "bench", "tools")
    commit = first_line("git", "rev-parse", "--short", "HEAD") + " and changes" * bool(changed)
    names = re.findall(r"^model name\s*: (.*)", text_of("/proc/cpuinfo"), re.M)
    memory = int(re.search(r"^MemTotal: +(\d+)", text_of("/proc/meminfo"), re.M)[1])
    compilers = filter(None, [first_line("rustc", "--version"), first_line("g++", "--version")])
    return Origin(
        measurement, time.strftime("%Y-%m-%d"), commit, form, rows[0].rounds, round(seconds), load_average,
        names[0] if names else platform.machine(), processors(), memory / 2**20, f"{platform.system()} {platform.release()}",
        "; ".join(re.sub(r" *\([^)]*\)", "", compiler) for compiler in compilers),
        "cachegrind" if any(row.instructions for row in rows) else "", others,
    )
