"""Shares the families out among processes until enough inputs are compared, and adds up what they met."""

import os
from collections import deque
from concurrent.futures import Future, ProcessPoolExecutor
from itertools import count

from .comparing import FamilyComparison, Settings
from .families import NEEDED_FAMILIES
from .tally import Tally

# Families handed out ahead for each process, so that none of them waits.
AHEAD = 2
# After so many failed inputs the run is broken off.
MOST_FAILED = 100


def compare_family(settings: Settings, number: int) -> Tally:
    return FamilyComparison(settings, number).compare()


def run(settings: Settings, inputs: int) -> Tally:
    """Compares whole families, all that are needed, until there were as many inputs; prints differences.

    The tallies are added in the families' order, and those handed out beyond the last one are dropped: the
    result does not depend on how fast the processes are.
    """
    total = Tally()
    jobs = os.cpu_count() or 1
    numbers = count()
    waiting: deque[Future[Tally]] = deque()
    with ProcessPoolExecutor(jobs) as processes:
        for done in count():
            enough = done >= NEEDED_FAMILIES and total.inputs.total() >= inputs
            if enough or total.failed >= MOST_FAILED:
                break
            while len(waiting) < AHEAD * jobs:
                waiting.append(processes.submit(compare_family, settings, next(numbers)))
            tally = waiting.popleft().result()
            print(*tally.messages, sep="\n", end="\n" if tally.messages else "", flush=True)
            total.add(tally)
        processes.shutdown(cancel_futures=True)
    if total.failed >= MOST_FAILED:
        print("the run is broken off: too many inputs failed")
    return total
