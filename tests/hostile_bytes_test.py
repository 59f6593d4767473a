"""Every front of each sample and of its certificate, and each of their bytes replaced by 00, 7F, 80, FF and itself with the lowest bit changed: the
built calls `prepare` and `check`, both of which open the file, return, and answer as the player in Python does. Those of a triangle were found by
hand."""

import json
import multiprocessing
import os
import unittest
from concurrent.futures import ProcessPoolExecutor

from answers import refused
from built import SAMPLES, answer, for_each_program
from commands_test import CommandTest
from hostile.each_byte import Sample, compared, of_bitmap, tried, variants
from metafile.bitmaps import QUAD, bitmap
from metafile.fields import RED, i32, u16, u32
from metafile.files import EMF_END, emf_file, emf_record
from metafile.scripts import WMF
from request_program import PROGRAMS

# Of the longest samples one byte of so many is tried, and of their certificates: fewest of the wheel, whose 3,228 records are alike, and of the
# bitmaps, most of whose bytes are pixels. With EVERY_BYTE set each is.
STRIDE = {"wheel.wmf": 499, "bitmaps.emf": 13, "bitmaps.wmf": 13, "paths.emf": 3, "lines.wmf": 3, "raster_ops.emf": 2}

# Files up to this length are given to the program of both compilers, longer ones to that of the first.
SHORT = 1000

# How many places are tried in one process at a time.
PLACES = 400


def tasks():
    """What is tried side by side: programs, a sample, whether its certificate is meant, and places of its bytes, the longest samples first."""
    for path in sorted(SAMPLES.glob("*.?mf"), key=lambda path: -path.stat().st_size):
        for of_certificates, length in [(False, path.stat().st_size), (True, len(Sample(path.name).text))]:
            places = range(0, length, 1 if "EVERY_BYTE" in os.environ else STRIDE.get(path.name, 1))
            for at in range(0, len(places), PLACES):
                yield PROGRAMS if path.stat().st_size <= SHORT else PROGRAMS[:1], path.name, of_certificates, places[at : at + PLACES]


class EachByte(unittest.TestCase):
    """Samples and their certificates."""

    def test_fronts_and_replaced_bytes(self):
        count, wrong = 0, []
        with ProcessPoolExecutor(mp_context=multiprocessing.get_context("fork")) as pool:
            for tried_here, found in pool.map(tried, *zip(*tasks(), strict=True)):
                count += tried_here
                wrong += found
        self.assertEqual(wrong[:3], [], len(wrong))
        self.assertGreater(count, 60_000)

    def test_fronts_and_replaced_bytes_of_a_bitmap(self):
        whole = QUAD.packed
        pairs = [pair for data in [whole, *(it.data for it in variants(whole, range(len(whole))))] for pair in of_bitmap(data)]
        self.assertGreater(sum(wanted.startswith(b"prepared") for _, wanted in pairs), 500)
        self.assertGreater(sum(wanted.startswith(b"ShortDib") for _, wanted in pairs), 200)
        for program in PROGRAMS:
            self.assertEqual(list(compared(program, pairs)), [])


# A triangle as a placeable file: headers of 40 bytes, a record of 20 and the end of 6; its certificate has an entry, and 60 bytes.
TRIANGLE = WMF.file(WMF.records("polygon 0 0 4 0 0 4"), 4, 0)
LENGTHS = {"NotMetafile": range(4), "ShortHeader": range(4, 40), "NoEnd 0": range(40, 46), "PastEnd 0": range(46, 60), "NoEnd 1": range(60, 66)}
CERTIFICATE_LENGTHS = {"NotCertificate": range(4), "ShortCertificate": range(4, 60)}

# A polygon of EMF whose count of points is at its end, and bitmaps with the longest sides that a header can tell.
LONG_LIST = emf_file([emf_record(3, i32(0, 0, -1, -1) + u32(0xFFFFFFFF) + i32(0, 0) * 3), EMF_END])
SIDES = [{"width": i32(0x7FFFFFFF)}, {"height": i32(-0x80000000)}]


class ByHand(CommandTest):
    """A triangle and others."""

    def check(self, program, given, certificate, fault):
        """What `check` reports of a file and a certificate: a fault, and its record behind a blank, if it lies in one."""
        told = answer(program, ["check", "stdin", self.file("certificate", certificate)], given)
        report = json.loads(told.out)
        name, _, record = fault.partition(" ")
        self.assertEqual((told.status, report["fault"], report["record"]), (1, name, int(record) if record else None))

    def certificate_of(self, program, given):
        """The certificate of a file."""
        made = answer(program, ["prepare", "stdin", "4", "4", "/dev/stdout"], given)
        self.assertEqual((made.status, made.err), (0, b""))
        return made.out

    @for_each_program
    def test_fronts_of_a_triangle_and_its_certificate(self, program):
        certificate = self.certificate_of(program, TRIANGLE)
        self.assertEqual((len(TRIANGLE), len(certificate)), (66, 60))
        for fault, lengths in LENGTHS.items():
            for length in lengths:
                self.check(program, TRIANGLE[:length], certificate, fault)
                told = answer(program, ["prepare", "stdin", "4", "4", "/dev/stdout"], TRIANGLE[:length])
                self.assertEqual(told, refused(*fault.split()))
        for fault, lengths in CERTIFICATE_LENGTHS.items():
            for length in lengths:
                self.check(program, TRIANGLE, certificate[:length], fault)

    @for_each_program
    def test_sizes_and_counts_at_their_ends(self, program):
        certificate = self.certificate_of(program, TRIANGLE)
        self.check(program, TRIANGLE, certificate[:36] + u32(0xFFFFFFFF) + certificate[40:], "BadBound")
        self.check(program, TRIANGLE[:40] + u32(0xFFFFFFFF) + TRIANGLE[44:], certificate, "PastEnd 0")
        for count in (0xFFFF, 0x7FFF, 0x8000):
            self.check(program, TRIANGLE[:46] + u16(count) + TRIANGLE[48:], certificate, "BadParams 0")
        self.check(program, LONG_LIST, certificate, "BadParams 1")
        for changes in SIDES:
            tile = bitmap([[RED]], 24, **changes)
            self.check(program, WMF.file(WMF.records(f"tiled_brush 0 {tile}"), 4, 0), certificate, "BadDib 0")


if __name__ == "__main__":
    unittest.main()
