"""The library for C as tests call it: installed once a process, with the examples that use it."""

import atexit
import ctypes
import functools
import importlib.util
import pathlib
import shutil
import subprocess
import tempfile

import archive
from built import ROOT

EXAMPLES = ROOT / "examples"

STRICT = ["-std=c99", "-Wall", "-Wextra", "-Werror", "-pedantic"]


def example():
    """The example in Python, as a module."""
    spec = importlib.util.spec_from_file_location("show_example", EXAMPLES / "show.py")
    module = importlib.util.module_from_spec(spec)
    spec.loader.exec_module(module)
    return module


SHOW = example()


@functools.cache
def folder():
    """A folder in which the library is installed."""
    prefix = pathlib.Path(tempfile.mkdtemp(prefix="c-library-"))
    atexit.register(shutil.rmtree, prefix)
    archive.have_built()
    subprocess.run([ROOT / "metaplay", "install", prefix], check=True)
    return prefix


def compiled(source, name, words):
    """A C program, compiled with no warning."""
    program = folder() / name
    subprocess.run(["cc", *STRICT, "-O1", f"-I{folder() / 'include'}", source, *words, "-o", program], check=True)
    return program


@functools.cache
def linked_show():
    """The C example, linked with the archive."""
    return compiled(EXAMPLES / "show.c", "show", [folder() / "lib/libmetaplay.a"])


@functools.cache
def loading_show():
    """The C example, which loads the shared library."""
    return compiled(EXAMPLES / "show.c", "show_shared", [f"-L{folder()}/lib", "-lmetaplay", f"-Wl,-rpath,{folder()}/lib"])


@functools.cache
def library():
    """The functions of the shared library, on bytes."""
    return SHOW.Metaplay(str(folder() / "lib/libmetaplay.so"))


def numbers(answer):
    """The numbers of an answer, by their names."""
    return {name: getattr(answer, name) for name, _ in SHOW.Answer._fields_}


def plain(outcome, length=0):
    """The numbers of an answer without a fault."""
    return dict.fromkeys(numbers(SHOW.Answer()), 0) | {"outcome": outcome, "length": length}


def rejected(fault, record=None, kind=None):
    """The numbers of an answer with a fault."""
    return plain(SHOW.REJECTED) | {
        "fault": fault,
        "record_number": record or 0,
        "has_record_number": record is not None,
        "record_kind": kind or 0,
        "has_record_kind": kind is not None,
    }


# What a buffer holds before a call.
HELD = bytes(range(7, 256, 31)) * 9


class Buffer:
    """A buffer for a call: it is somewhat longer than what the call is told, so that bytes written after its end would be seen."""

    def __init__(self, length):
        """Fills it."""
        self.length = length
        self.before = (HELD * (length // len(HELD) + 2))[: length + len(HELD)]
        self.bytes = ctypes.create_string_buffer(self.before, len(self.before))

    def words(self):
        """The arguments for a call."""
        return self.bytes, self.length

    def written(self, length):
        """The first bytes, if no others have changed."""
        if self.bytes.raw[length:] != self.before[length:]:
            raise AssertionError(f"bytes after the first {length} have changed")
        return self.bytes.raw[:length]


def prepare(given, sides, length):
    """The numbers of the answer to preparing a certificate in a buffer of this length, and the buffer."""
    buffer = Buffer(length)
    return numbers(library().library.metaplay_prepare(given, len(given), *sides, *buffer.words())), buffer


def prepare_print(given, allowed, sides, length):
    """The same under the print profile, with what a number allows."""
    buffer = Buffer(length)
    return numbers(library().library.metaplay_prepare_print(given, len(given), allowed, *sides, *buffer.words())), buffer


def play(given, certificate, sides, length):
    """The same of playing a file."""
    buffer = Buffer(length)
    inputs = given, len(given), certificate, len(certificate)
    return numbers(library().library.metaplay_play(*inputs, *sides, *buffer.words())), buffer


def play_rows(given, certificate, rows, length):
    """The same of playing some rows of it."""
    buffer = Buffer(length)
    inputs = given, len(given), certificate, len(certificate)
    return numbers(library().library.metaplay_play_rows(*inputs, ctypes.byref(SHOW.Rows(*rows)), *buffer.words())), buffer


def play_over(given, certificate, sides, image, length):
    """The numbers of the answer to playing a file over an image, of whose bytes the call is told so many, and what the image's buffer then has."""
    held = ctypes.create_string_buffer(image, len(image))
    inputs = given, len(given), certificate, len(certificate)
    return numbers(library().library.metaplay_over(*inputs, *sides, held, length)), held.raw


def check(given, certificate):
    """The numbers of the answer to checking a certificate."""
    return numbers(library().library.metaplay_check(given, len(given), certificate, len(certificate)))


def fault_name(code, length):
    """The numbers of the answer to copying a fault's name to a buffer of this length, and the buffer."""
    buffer = Buffer(length)
    return numbers(library().library.metaplay_fault_name(code, *buffer.words())), buffer


def terms_of(certificate):
    """The numbers of the answer to reading what a certificate says of every play, and these numbers: writes, width and height."""
    terms = SHOW.Terms(5, 7, 9)
    answer = library().library.metaplay_certificate_terms(certificate, len(certificate), ctypes.byref(terms))
    return numbers(answer), (terms.writes, terms.max_width, terms.max_height)


def fitted(given, width, height):
    """The numbers of the answer to finding the sides that fit a frame, and the sides."""
    sides = SHOW.Sides(7, 9)
    answer = library().library.metaplay_fitted_sides(given, len(given), width, height, ctypes.byref(sides))
    return numbers(answer), (sides.width, sides.height)
