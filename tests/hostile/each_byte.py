"""Every front of a file or a certificate, and each of its bytes replaced: what the calls `prepare` and `check` answer, many in one process of a
program that answers requests."""

import pathlib
import subprocess
from typing import NamedTuple

from built import SAMPLES
from certificates_test import CHECK, PREPARE, asked, line_of
from hostile.resuming import Base
from metafile.bitmaps import Bitmap
from metafile.blits import (
    SRCCOPY,
    dib_pattern_brush,
    dib_stretch_blt,
    pattern_brush_pt,
    stretch_blt,
    stretch_dib,
    stretch_dibits,
)
from metafile.fields import joined
from metafile.scripts import EMF, WMF
from reading.certificates import refusal_of
from reading.commands import Asked

# The bound at which samples are prepared.
SIDES = (16, 16)

# The most bytes of requests in one process.
MOST_BYTES = 1 << 24


class Variant(NamedTuple):
    """Bytes that are others up to a place and not from it on."""

    data: bytes
    at: int


def variants(data, places):
    """Each front of some bytes that ends at one of these places, and these bytes with that at each place replaced."""
    for at in places:
        yield Variant(data[:at], at)
        for byte in {0x00, 0x7F, 0x80, 0xFF, data[at] ^ 1} - {data[at]}:
            yield Variant(data[:at] + bytes([byte]) + data[at + 1 :], at)


class Sample:
    """A sample, its certificate, and the program's answers to what is near them."""

    def __init__(self, name):
        self.base = Base(pathlib.Path(SAMPLES, name).read_bytes(), SIDES)
        self.certificate = self.base.whole.certificate()
        self.text = self.certificate.text()

    def of_file(self, variant):
        """The requests of a file near this one, and what is to be answered."""
        certifier, stop, records = self.base.answered(*variant)
        yield asked(PREPARE, SIDES, variant.data), refused_or(stop, lambda: prepared(certifier.certificate().text()))
        refusal = stop if certifier is None else refusal_of(self.certificate, certifier, stop, records)
        yield asked(CHECK, (0, 0), variant.data, self.text), refused_or(refusal, lambda: b"accepted %d\n" % records)

    def of_certificate(self, variant):
        """The request of a certificate near this one, and what is to be answered."""
        _, refusal = self.base.asked.checked(variant.data)
        yield asked(CHECK, (0, 0), self.base.file, variant.data), refused_or(refusal, lambda: b"accepted %d\n" % len(self.base.steps.read))


def bitmap_files(data):
    """Files of both formats that make a brush of a bitmap of these bytes, and copy from it: in WMF in whole words, in EMF in two parts."""
    parts, box = Bitmap(data[:40], data[40:]), (SRCCOPY, 0, 0, 4, 4, 0, 0, 2, 2)
    records = [(94, pattern_brush_pt(1, parts)), (81, stretch_dibits(*box, parts=parts)), (77, stretch_blt(*box, parts=parts))]
    yield from (EMF.file([EMF.record(kind, joined(fields, {}))], 4, 2) for kind, fields in records)
    if len(data) % 2 == 0:
        records = [(0x0142, dib_pattern_brush(data)), (0x0F43, stretch_dib(*box, packed=data)), (0x0B41, dib_stretch_blt(*box, packed=data))]
        yield from (WMF.file([WMF.record(kind, joined(fields, {}))], 4, 0) for kind, fields in records)


def of_bitmap(data):
    """The requests of such files, and what is to be answered."""
    for file in bitmap_files(data):
        certifier, stop = Asked(file).certified(SIDES)
        yield asked(PREPARE, SIDES, file), refused_or(stop, lambda certifier=certifier: prepared(certifier.certificate().text()))


def prepared(text):
    """The answer that a certificate was prepared."""
    return b"prepared %d\n" % len(text) + text


def refused_or(refusal, done):
    """The answer of a refusal, or else what is done."""
    return line_of(refusal).encode() + b"\n" if refusal else done()


def answers(program, requests):
    """All that a program answers to requests."""
    return subprocess.run([program], input=b"".join(requests), capture_output=True, timeout=600, check=True).stdout


def first_wrong(program, pairs):
    """The first request that isn't answered as it should be, with what is found."""
    for request, wanted in pairs:
        found = answers(program, [request])
        if found != wanted:
            return f"{program.name}: {found[:200]} in place of {wanted[:200]} to the request {request.hex()[:4000]}"
    return f"{program.name}: only many requests together are answered in another way"


def compared(program, pairs):
    """What is wrong of a program's answers to requests: they are given together, up to so many bytes."""
    held, size = [], 0
    for request, wanted in pairs:
        held.append((request, wanted))
        size += len(request)
        if size > MOST_BYTES:
            yield from wrong_of(program, held)
            held, size = [], 0
    yield from wrong_of(program, held)


def wrong_of(program, held):
    """What is wrong of the answers to some requests."""
    if answers(program, [request for request, _ in held]) != b"".join(wanted for _, wanted in held):
        yield first_wrong(program, held)


def tried(programs, name, of_certificates, places):
    """How many requests near a sample, or near its certificate, programs answer, and what is wrong."""
    sample = Sample(name)
    data, requests_of = (sample.text, sample.of_certificate) if of_certificates else (sample.base.file, sample.of_file)
    pairs = (pair for variant in variants(data, places) for pair in requests_of(variant))
    if len(programs) > 1:
        pairs = list(pairs)
    wrong, count = [], 0

    def told():
        """The requests, counted."""
        nonlocal count
        for pair in pairs:
            count += 1
            yield pair

    for program in programs:
        count = 0
        wrong += compared(program, told())
    return count, wrong
