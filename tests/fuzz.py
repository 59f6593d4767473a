#!/usr/bin/env python3
"""Gives hostile cases to the built programs by hand, as many as are asked for: `tests/fuzz.py 1000000 SEED`. Each batch tells the first case of
a program that isn't answered as the player in Python says; `tests/fuzz.py --case NUMBER SEED` writes that one's files."""

import argparse
import pathlib
import sys
import time

from built import PROGRAMS
from hostile.cases import case
from hostile.pool import BATCH, try_all


def write(seed, number):
    """Writes a case's file and certificate, and says which commands it is given to."""
    one = case(seed, number)
    for name, data in one.files():
        pathlib.Path(f"{number}.{name}").write_bytes(data)
    for words, told in one.commands():
        print(*words, told)


def try_many(told):
    """Tries cases, and says how far it is and what is wrong."""
    start, wrong, done, accepted = time.monotonic(), 0, 0, 0
    programs = PROGRAMS[:1] if told.one else PROGRAMS
    for ok, found in try_all(told.seed, told.count, told.first, told.processes, programs):
        accepted, done, wrong = accepted + ok, done + BATCH, wrong + len(found)
        for one in found:
            print(one, flush=True)
        if done % 10_000 == 0 and done < told.count:
            print(f"{done} cases, {accepted} accepted, {wrong} wrong, {time.monotonic() - start:.0f} s", flush=True)
    print(f"{done} cases, {accepted} accepted, {wrong} wrong, {time.monotonic() - start:.0f} s")
    return 1 if wrong else 0


def main():
    """Reads the command line."""
    words = argparse.ArgumentParser(description=__doc__)
    words.add_argument("count", type=int)
    words.add_argument("seed")
    words.add_argument("--case", action="store_true", help="the count is a case's number")
    words.add_argument("--first", type=int, default=0, help="the number of the first case")
    words.add_argument("--processes", type=int, help="how many processors to use, if not all")
    words.add_argument("--one", action="store_true", help="only the program as LLVM builds it")
    told = words.parse_args()
    if told.case:
        write(told.seed, told.count)
        return 0
    return try_many(told)


if __name__ == "__main__":
    sys.exit(main())
