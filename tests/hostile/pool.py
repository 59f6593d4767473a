"""Tries many cases side by side, on as many processors as there are."""

import itertools
import multiprocessing
import os
from concurrent.futures import ProcessPoolExecutor

from built import PROGRAMS
from hostile.cases import has_list
from hostile.corpus import corpus
from hostile.runs import tried
from memory_test import bare

# How many cases are made, and given to each program, at a time.
BATCH = 250


def prepare(programs):
    """Does once what each process would do for itself: it is forked behind this."""
    corpus()
    has_list()
    for program in programs:
        bare(program)


def try_all(seed, count, first=0, processes=None, programs=PROGRAMS):
    """Tries cases of a seed from a number on: what came of each batch, in order."""
    prepare(programs)
    numbers = range(first, first + count)
    batches = [numbers[at : at + BATCH] for at in range(0, count, BATCH)]
    processes = processes or len(os.sched_getaffinity(0))
    with ProcessPoolExecutor(processes, mp_context=multiprocessing.get_context("fork")) as pool:
        yield from pool.map(tried, itertools.repeat(programs), itertools.repeat(seed), batches)
