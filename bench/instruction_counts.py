"""Counts the instructions of a program on files, and holds them against those on record."""

import json
import os
import pathlib
import re
import shutil
import subprocess
import tempfile
from concurrent.futures import ThreadPoolExecutor

import asked_files
import certificate_fault_files
import choice_files
import clipped_files
import edge_files
import fault_files
import fill_files
import head_fault_files
import image_files
import instruction_files
import large_files
import mixed_files
import nib_files
import packed_files
import paint_files
import pixel_files
import planted_files
import planted_records
import rare_files
import record_files
import refused_files
import row_files
import slip_files
import state_files
import stroke_files
import told_files
import wide_stroke_files
from print_files import PARTS, named_print, under_print
from writers import PROGRAM, ROOT

MODULES = [
    instruction_files,
    row_files,
    stroke_files,
    slip_files,
    fill_files,
    image_files,
    paint_files,
    clipped_files,
    record_files,
    wide_stroke_files,
    told_files,
    pixel_files,
    edge_files,
    choice_files,
    large_files,
    planted_files,
    planted_records,
    rare_files,
]

# The files whose instructions are counted under both profiles.
BOTH = {name: made for module in MODULES for name, made in module.FILES.items()}

# Drawings, states and what is asked about files by chance, of which each sort is a small part of the work.
CHANCE = mixed_files.FILES | nib_files.FILES | packed_files.FILES | state_files.FILES | asked_files.FILES

# What has its first fault at the beginning.
FAULTS = fault_files.FILES | head_fault_files.FILES | certificate_fault_files.FILES

# Each of these under the core profile and under the print profile, those whose work is in parts of a unit, those that are rejected early, and those
# by chance.
FILES = BOTH | {named_print(name): under_print(made) for name, made in BOTH.items()} | PARTS | refused_files.FILES | FAULTS | CHANCE

RECORD = ROOT / "bench" / "instructions.json"

# How many times the instructions on record a file may take at most; and one by chance.
MOST, MOST_CHANCE = 1.02, 1.005


class Uncounted(Exception):
    """Why instructions can't be counted."""


def count(program, name):
    """The instructions of one run on a file: the same from run to run, since the program gets no words of the caller's environment and the file is
    named alike."""
    valgrind = shutil.which("valgrind")
    if valgrind is None:
        raise Uncounted("valgrind is not there: it counts instructions (apt-get install valgrind)")
    counted = FILES[name]()
    with tempfile.TemporaryDirectory() as folder:
        pathlib.Path(folder, "file").write_bytes(counted.certified or counted.given)
        if counted.image:
            pathlib.Path(folder, "image").write_bytes(counted.image)
        if counted.certificate:
            pathlib.Path(folder, "certificate").write_bytes(counted.certificate)
        if counted.preparing():
            subprocess.run([os.path.abspath(program), *counted.preparing()], cwd=folder, env={}, check=True)
        pathlib.Path(folder, "file").write_bytes(counted.given)
        words = [valgrind, "--tool=callgrind", "--callgrind-out-file=/dev/null", os.path.abspath(program), *counted.words()]
        ended = subprocess.run(words, cwd=folder, env={}, stdout=subprocess.DEVNULL, stderr=subprocess.PIPE, text=True)
    told = re.search(r"Collected : (\d+)", ended.stderr)
    if ended.returncode != counted.status or told is None:
        raise Uncounted(f"{name}: status {ended.returncode}\n{ended.stderr[-1000:]}")
    return int(told[1])


def count_all(program):
    """The instructions of each file, two at a time."""
    with ThreadPoolExecutor(2) as pool:
        return dict(zip(FILES, pool.map(lambda name: count(program, name), FILES), strict=True))


def on_record(path=RECORD):
    """The instructions on record, by the files' names."""
    return json.loads(pathlib.Path(path).read_text())


def write_record(program, path=RECORD):
    """Counts all files and writes what they take."""
    counts = count_all(program)
    pathlib.Path(path).write_text(json.dumps(counts, indent=4) + "\n")
    return counts


def is_within(taken, recorded, most=MOST):
    """Whether a count is at most so many times the one on record."""
    return 1000 * taken <= round(1000 * most) * recorded


def most_of(name):
    """How many times the instructions on record a file may take at most."""
    return MOST_CHANCE if name in CHANCE else MOST
