"""Processor times and memory of programs that are run."""

import math
import resource
import subprocess

RUNS = 5
LONG_SECONDS = 0.2


class Refused(Exception):
    pass


def ran(words, folder):
    """What is answered, the processor's seconds, and the most bytes of memory."""
    before = resource.getrusage(resource.RUSAGE_CHILDREN)
    timed = ["/usr/bin/time", "-q", "-f", "%M", *words]
    done = subprocess.run(timed, cwd=folder, capture_output=True, text=True)
    after = resource.getrusage(resource.RUSAGE_CHILDREN)
    spent = after.ru_utime + after.ru_stime - before.ru_utime - before.ru_stime
    return done, spent, int(done.stderr.split()[-1]) * 1024


def least(words, folder, statuses, long_seconds=LONG_SECONDS):
    """The last line that is shown, and the least seconds and bytes of several runs, or of one that is long."""
    seconds, memory = math.inf, math.inf
    for _ in range(RUNS):
        done, spent, held = ran(words, folder)
        if done.returncode not in statuses:
            raise Refused(f"{' '.join(map(str, words))}: status {done.returncode}, {done.stdout.strip()}")
        seconds, memory = min(seconds, spent), min(memory, held)
        if spent > long_seconds:
            break
    return done.stdout.splitlines()[-1], seconds, memory
