#!/usr/bin/env python3
"""How many proofs go side by side on this machine: one a processor, at most four, and as many as memory holds.

`tools/gate/lanes.py` prints that number. A number in the environment's RT_JOBS is kept.
"""
import os
import re
from pathlib import Path

MOST = 4
# What one proof may take of free memory, in bytes: the largest were seen to take 3.7 GB, and seldom two of them at once.
EACH = 3_000_000_000
# A control group's limit of memory beside what it holds, in either version of groups.
GROUPS = (('/sys/fs/cgroup/memory.max', '/sys/fs/cgroup/memory.current'),
          ('/sys/fs/cgroup/memory/memory.limit_in_bytes', '/sys/fs/cgroup/memory/memory.usage_in_bytes'))


def number_in(file, pattern=r'(\d+)'):
    """The number that the pattern finds in a file, or None."""
    try:
        found = re.search(pattern, Path(file).read_text())
    except OSError:
        return None
    return int(found[1]) if found else None


def processors():
    """How many processors this process may run on."""
    return len(os.sched_getaffinity(0))


def memory(kind):
    """The bytes of memory that /proc/meminfo tells of, MemTotal or MemAvailable."""
    return 1024 * (number_in('/proc/meminfo', rf'{kind}:\s+(\d+)') or 0)


def free():
    """The bytes of memory that are free, within a control group's limit too."""
    found = [memory('MemAvailable')]
    for limit, held in GROUPS:
        limit, held = number_in(limit), number_in(held)
        if limit is not None and held is not None:
            found.append(limit - held)
    return min(found)


def lanes(cores, room):
    """How many proofs go side by side on so many processors, with so many free bytes."""
    return max(1, min(cores, room // EACH, MOST))


def chosen():
    """The number for this machine now, or the one of RT_JOBS."""
    given = os.environ.get('RT_JOBS', '')
    return int(given) if given.isdigit() and int(given) else lanes(processors(), free())


if __name__ == '__main__':
    print(chosen())
