"""The library for C: it answers as the built program does, and changes no byte that it doesn't report. Its examples show the samples as the program
does, linked with the archive and with the shared library, and the header compiles as C and as C++ without a warning."""

import concurrent.futures
import json
import pathlib
import re
import resource
import shutil
import subprocess
import sys
import tempfile
import unittest

from built import DOT, PROGRAMS, ROOT, SAMPLES, Answer, answer
from c_library import EXAMPLES, SHOW, STRICT, check, compiled, fault_name, fitted, folder, library, linked_show, loading_show, plain, play, prepare, prepare_print, rejected, terms_of
from command_inputs import FAR, NOTED, NOTED_CERT, NOTHING, NOTHING_CERT, TRIANGLE, TRIANGLE_CERT, changed
from commands_test import DOT_CERT
from metafile.fields import i16, u32
from metafile.files import WMF_END, placeable_file, wmf_record

PROGRAM = PROGRAMS[0]

# The samples, and the one that doesn't play.
NAMES = sorted(it.name for it in SAMPLES.iterdir() if it.suffix in (".wmf", ".emf"))

HELD_OBJECT = "held.wmf"

SIDES = (96, 80)

# The codes of faults by their names.
CODES = {name: int(code) for code, name in re.findall(r"(?m)^\| (\d+) \| `(\w+)` \|", (ROOT / "docs/FAULTS.md").read_text(encoding="utf-8"))}

# Codes that no fault has.
NO_CODES = [0, 49, 50, 255, 256, 1 << 8 | 1, (1 << 32) - 1]

# Sides that no surface has.
NO_SIDES = [0, 8193, 65536, (1 << 32) - 1]


def ran(words):
    """What a program answers, with the name of the command in place of its own."""
    done = subprocess.run([str(it) for it in words], capture_output=True, check=False)
    return Answer(done.returncode, done.stdout, re.sub(rb"^show(\.py)?: ", b"metaplay: ", done.stderr))


def shown(name, width, height):
    """What the built program answers when it shows a sample."""
    return answer(PROGRAM, ["show", SAMPLES / name, str(width), str(height)])


def certificate_of(given, width, height, *words):
    """The certificate that the built program prepares, by options for the rules."""
    with tempfile.TemporaryDirectory() as room:
        path = pathlib.Path(room, "certificate")
        done = answer(PROGRAM, ["prepare", "stdin", str(width), str(height), path, *words], given)
        return path.read_bytes() if done.status == 0 else done


def reported(given, certificate):
    """The report of the built program's check."""
    with tempfile.TemporaryDirectory() as room:
        path = pathlib.Path(room, "certificate")
        path.write_bytes(certificate)
        return json.loads(answer(PROGRAM, ["check", "stdin", path], given).out)


def of_report(report):
    """The numbers of the library's answer that say the same as a report."""
    return plain(SHOW.DONE) if report["accepted"] else rejected(report["code"], report["record"], report["number"])


def inputs():
    """Files, each with a certificate, of which some are accepted and the others have faults of all sorts."""
    for given, certificate in [(DOT, DOT_CERT), (TRIANGLE, TRIANGLE_CERT), (NOTHING, NOTHING_CERT), (NOTED, NOTED_CERT), (FAR, DOT_CERT)]:
        yield given, certificate
        yield from ((given[:length], certificate) for length in (0, 1, 17, 22, len(given) - 6, len(given) - 1))
        yield from ((given, certificate[:length]) for length in (0, 3, 4, 39, len(certificate) - 1))
        yield given, certificate + b"\0"
        yield from ((given, changed(certificate, place, u32(number))) for place in (4, 8, 12, 28, 36) for number in (0, 1, 8193) if place < len(certificate))
    text = wmf_record(0x0A32, bytes(8))
    unknown = wmf_record(0x0001, bytes(2))
    yield from ((placeable_file([record, WMF_END]), DOT_CERT) for record in (text, unknown))


class Examples(unittest.TestCase):
    """The examples show a sample as the program does."""

    def test_the_c_example_shows_each_sample(self):
        for program in (linked_show(), loading_show()):
            for name in NAMES:
                with self.subTest(program=program.name, name=name):
                    self.assertEqual(ran([program, SAMPLES / name, *SIDES]), shown(name, *SIDES))

    def test_the_c_example_plays_by_a_certificate(self):
        with tempfile.TemporaryDirectory() as room:
            path = pathlib.Path(room, "certificate")
            path.write_bytes(certificate_of((SAMPLES / "polygons.emf").read_bytes(), *SIDES))
            words = [linked_show(), SAMPLES / "polygons.emf"]
            self.assertEqual(ran([*words, *SIDES, path]), shown("polygons.emf", *SIDES))
            self.assertEqual(ran([*words, 97, 80, path]), Answer(1, b"", b"metaplay: SurfaceTooLarge\n"))
            path.write_bytes(b"MPC")
            self.assertEqual(ran([*words, *SIDES, path]), Answer(1, b"", b"metaplay: NotCertificate\n"))

    def test_the_c_example_rejects_by_record_and_kind(self):
        with tempfile.TemporaryDirectory() as room:
            path = pathlib.Path(room, "text.wmf")
            path.write_bytes(placeable_file([wmf_record(0x0A32, bytes(8)), WMF_END]))
            self.assertEqual(ran([linked_show(), path, 4, 4]), Answer(1, b"", b"metaplay: Unsupported 2610 at record 0\n"))
        self.assertEqual(ran([linked_show(), SAMPLES / HELD_OBJECT, 4, 4]), Answer(1, b"", b"metaplay: HeldObject at record 5\n"))

    def test_the_python_example_shows_each_sample_in_its_proportion(self):
        path = str(folder() / "lib/libmetaplay.so")
        for name in NAMES:
            with self.subTest(name=name):
                told = ran([sys.executable, "-B", EXAMPLES / "show.py", path, SAMPLES / name, *SIDES])
                _, sides = fitted((SAMPLES / name).read_bytes(), *SIDES)
                self.assertEqual(told, shown(name, *sides))

    def test_the_python_example_rejects_wrong_words(self):
        path, words = str(folder() / "lib/libmetaplay.so"), [sys.executable, "-B", EXAMPLES / "show.py"]
        usage = Answer(2, b"", b"metaplay: a side is a number from 1 to 8192\n")
        for side in ("", "0", "000", "8193", "1" * 5000, "\u00b2", "-1", "4.0"):
            self.assertEqual(ran([*words, path, SAMPLES / HELD_OBJECT, side, 4]), usage, side[:9])
        self.assertEqual(ran([*words, path, SAMPLES / HELD_OBJECT, "0004", "08"]), Answer(1, b"", b"metaplay: HeldObject at record 5\n"))
        told = ran([*words, "libc.so.6", SAMPLES / HELD_OBJECT, 4, 4])
        self.assertEqual((told.status, told.out, told.err[:10]), (3, b"", b"metaplay: "))


class Headers(unittest.TestCase):
    """The header and the shared library."""

    def test_the_header_compiles_alone_in_each_language(self):
        for words in (["-x", "c", *STRICT], ["-x", "c", *STRICT[1:], "-std=c17"], ["-x", "c++", *STRICT[1:], "-std=c++11"]):
            with self.subTest(words=words):
                words = ["c++" if "c++" in words else "cc", *words, "-fsyntax-only", ROOT / "include/metaplay.h"]
                done = subprocess.run(words, capture_output=True, text=True, check=False)
                self.assertEqual((done.returncode, done.stderr), (0, ""))

    @unittest.skipUnless(shutil.which("clang"), "clang is not installed")
    def test_clang_has_no_warning_of_the_c_example(self):
        words = ["clang", *STRICT, "-Wconversion", "-fsyntax-only", f"-I{ROOT / 'include'}", EXAMPLES / "show.c"]
        done = subprocess.run(words, capture_output=True, text=True, check=False)
        self.assertEqual((done.returncode, done.stderr), (0, ""))

    def test_the_python_example_declares_each_function_of_the_header(self):
        declared = re.findall(r"(?m)^metaplay_answer (metaplay_\w+)\(", (ROOT / "include/metaplay.h").read_text(encoding="utf-8"))
        self.assertEqual(sorted(SHOW.FUNCTIONS), sorted(declared))

    def test_the_file_for_pkg_config_names_what_is_installed(self):
        text = (folder() / "lib/pkgconfig/metaplay.pc").read_text(encoding="utf-8")
        paths = {"prefix": str(folder()), "includedir": f"{folder()}/include", "libdir": f"{folder()}/lib"}
        for name, path in paths.items():
            text = text.replace(f"${{{name}}}", path)
        flags = [f"Cflags: -I\"{paths['includedir']}\"", f"Libs: -L\"{paths['libdir']}\" -lmetaplay"]
        for line in [*(f"{name}={path}" for name, path in paths.items()), *flags]:
            self.assertIn(line, text.splitlines())


class Calls(unittest.TestCase):
    """The functions, one by one."""

    def test_check_answers_as_the_command(self):
        accepted = 0
        for given, certificate in inputs():
            report = reported(given, certificate)
            accepted += report["accepted"]
            self.assertEqual(check(given, certificate), of_report(report), (given, certificate))
        self.assertGreaterEqual(accepted, 4)

    def test_prepare_writes_the_certificate_of_the_command(self):
        for name in NAMES:
            given = (SAMPLES / name).read_bytes()
            made = certificate_of(given, *SIDES)
            with self.subTest(name=name):
                if name == HELD_OBJECT:
                    self.assertEqual(made, Answer(1, b"", b"metaplay: HeldObject at record 5\n"))
                    told, buffer = prepare(given, SIDES, 4096)
                    self.assertEqual((told, buffer.written(0)), (rejected(CODES["HeldObject"], 5), b""))
                    continue
                for length in (len(made), len(made) + 9):
                    told, buffer = prepare(given, SIDES, length)
                    self.assertEqual((told, buffer.written(len(made))), (plain(SHOW.DONE, len(made)), made))
                for length in (len(made) - 1, 1, 0):
                    told, buffer = prepare(given, SIDES, length)
                    self.assertEqual((told, buffer.written(0)), (plain(SHOW.TOO_SHORT, len(made)), b""))
                self.assertEqual(check(given, made), plain(SHOW.DONE))

    def test_prepare_print_writes_the_certificate_of_the_command(self):
        deletion, emf_plus = ["--allow", "held-deletion"], ["--allow", "emf-plus"]
        for name in NAMES:
            given = (SAMPLES / name).read_bytes()
            for allowed, words in enumerate(([], deletion, emf_plus, deletion + emf_plus)):
                made = certificate_of(given, *SIDES, "--profile", "print", *words)
                with self.subTest(name=name, allowed=allowed):
                    if name == HELD_OBJECT and allowed in (0, 2):
                        self.assertEqual(made, Answer(1, b"", b"metaplay: HeldObject at record 5\n"))
                        told, buffer = prepare_print(given, allowed, SIDES, 4096)
                        self.assertEqual((told, buffer.written(0)), (rejected(CODES["HeldObject"], 5), b""))
                        continue
                    told, buffer = prepare_print(given, allowed, SIDES, len(made))
                    self.assertEqual((told, buffer.written(len(made))), (plain(SHOW.DONE, len(made)), made))
                    told, buffer = prepare_print(given, allowed, SIDES, len(made) - 1)
                    self.assertEqual((told, buffer.written(0)), (plain(SHOW.TOO_SHORT, len(made)), b""))
                    self.assertEqual(made[:8], b"MPC3" + u32(allowed))
                    self.assertEqual(check(given, made), plain(SHOW.DONE))
                    told, buffer = play(given, made, SIDES, 3 * SIDES[0] * SIDES[1])
                    image = answer(PROGRAM, ["show", SAMPLES / name, *map(str, SIDES), "--profile", "print", *words]).out
                    self.assertTrue(buffer.written(told["length"]) == image.split(b"\n255\n", 1)[1])
            for allowed in (4, 7, 1 << 31, (1 << 32) - 1):
                told, buffer = prepare_print(given, allowed, SIDES, 4096)
                self.assertEqual((told, buffer.written(0)), (rejected(CODES["BadBound"]), b""))

    def test_play_writes_the_samples_of_the_command(self):
        for name in NAMES:
            if name == HELD_OBJECT:
                continue
            given = (SAMPLES / name).read_bytes()
            certificate = certificate_of(given, 130, 120)
            for sides in (SIDES, (1, 1), (130, 120), (7, 113)):
                samples = shown(name, *sides).out.split(b"\n255\n", 1)[1]
                with self.subTest(name=name, sides=sides):
                    for length in (len(samples), len(samples) + 9):
                        told, buffer = play(given, certificate, sides, length)
                        self.assertEqual(told, plain(SHOW.DONE, len(samples)))
                        self.assertTrue(buffer.written(len(samples)) == samples)
                    for length in (len(samples) - 1, 0):
                        told, buffer = play(given, certificate, sides, length)
                        self.assertEqual((told, buffer.written(0)), (plain(SHOW.TOO_SHORT, len(samples)), b""))

    def test_play_in_many_bands_writes_the_samples_of_the_command(self):
        given = (SAMPLES / "wheel.wmf").read_bytes()
        for sides in ((8192, 300), (300, 8192), (8191, 129)):
            samples = shown("wheel.wmf", *sides).out.split(b"\n255\n", 1)[1]
            told, buffer = play(given, certificate_of(given, *sides), sides, len(samples))
            self.assertEqual(told, plain(SHOW.DONE, len(samples)))
            self.assertTrue(buffer.written(len(samples)) == samples, sides)

    def test_what_decides_a_play_comes_in_order(self):
        bound, large = rejected(CODES["BadBound"]), rejected(CODES["SurfaceTooLarge"])
        for length in (0, 3 * 9 * 9):
            for side in NO_SIDES:
                for sides in ((side, 4), (4, side), (side, side)):
                    told, buffer = play(b"", b"", sides, length)
                    self.assertEqual((told, buffer.written(0)), (bound, b""))
            for sides in ((5, 4), (4, 5), (8192, 8192)):
                for given, certificate in ((b"", DOT_CERT), (DOT, b""), (DOT[:-1], DOT_CERT), (DOT, DOT_CERT + b"\0")):
                    told, buffer = play(given, certificate, sides, length)
                    self.assertEqual((told, buffer.written(0)), (check(given, certificate), b""))
                    self.assertEqual(told["outcome"], SHOW.REJECTED)
                told, buffer = play(DOT, DOT_CERT, sides, length)
                self.assertEqual((told, buffer.written(0)), (large, b""))
        for sides in ((4, 4), (1, 4), (4, 1)):
            told, buffer = play(DOT, DOT_CERT, sides, 3 * sides[0] * sides[1] - 1)
            self.assertEqual((told, buffer.written(0)), (plain(SHOW.TOO_SHORT, 3 * sides[0] * sides[1]), b""))

    def test_sides_that_no_surface_has_are_rejected(self):
        bound = rejected(CODES["BadBound"])
        for given in (DOT, b""):
            for side in NO_SIDES:
                for sides in ((side, 4), (4, side)):
                    told, buffer = prepare(given, sides, 256)
                    self.assertEqual((told, buffer.written(0)), (bound, b""))
                    self.assertEqual(fitted(given, *sides), (bound, (7, 9)))

    def test_fitted_sides_are_in_the_proportion_of_the_frame(self):
        wide = placeable_file([WMF_END], right=i16(200), bottom=i16(100))
        for sides, fit in (((100, 100), (100, 50)), ((100, 20), (40, 20)), ((1, 1), (1, 1)), ((8192, 8192), (8192, 4096)), ((3, 8192), (3, 2))):
            self.assertEqual(fitted(wide, *sides), (plain(SHOW.DONE), fit))
        for given, fault in ((b"", "NotMetafile"), (DOT[:30], "ShortHeader"), (placeable_file([WMF_END], right=i16(0)), "NoFrame")):
            self.assertEqual(fitted(given, 9, 9), (rejected(CODES[fault]), (7, 9)))

    def test_the_terms_are_those_of_the_certificate(self):
        # A head alone with a number of more than 32 bits; a dot; and a triangle, which may be filled and stroked.
        head = b"MPC1" + u32(8192, 4096) + u32(5, 16384) + u32(0, 0, 0, 0, 0)
        for certificate, terms in ((head, (16384 * 2**32 + 5, 8192, 4096)), (DOT_CERT, (1, 4, 4)), (TRIANGLE_CERT, (32, 4, 4))):
            self.assertEqual(terms_of(certificate), (plain(SHOW.DONE), terms))
        faults = ((b"", "NotCertificate"), (DOT_CERT[:39], "ShortCertificate"), (DOT_CERT + b"\0", "TrailingBytes"), (changed(DOT_CERT, 4, u32(0)), "BadBound"))
        for certificate, fault in faults:
            self.assertEqual(terms_of(certificate), (rejected(CODES[fault]), (5, 7, 9)))

    def test_each_fault_has_its_name(self):
        self.assertEqual(sorted(CODES.values()), list(range(1, 49)))
        longest = max(map(len, CODES))
        self.assertIn(f"#define METAPLAY_MOST_NAME {longest}\n", (ROOT / "include/metaplay.h").read_text(encoding="utf-8"))
        for name, code in CODES.items():
            for length in (len(name), longest, len(name) + 9):
                told, buffer = fault_name(code, length)
                self.assertEqual((told, buffer.written(len(name))), (plain(SHOW.DONE, len(name)), name.encode()))
            for length in (len(name) - 1, 0):
                told, buffer = fault_name(code, length)
                self.assertEqual((told, buffer.written(0)), (plain(SHOW.TOO_SHORT, len(name)), b""))

    def test_no_other_number_has_a_name(self):
        for code in NO_CODES:
            for length in (0, 64):
                told, buffer = fault_name(code, length)
                self.assertEqual((told, buffer.written(0)), (plain(SHOW.NO_SUCH_FAULT), b""))

    def test_calls_in_several_threads_answer_alike(self):
        given = (SAMPLES / "paths.emf").read_bytes()
        certificate = library().prepare(given, 200, 200)
        samples = library().play(given, certificate, 200, 200)
        with concurrent.futures.ThreadPoolExecutor(4) as pool:
            played = list(pool.map(lambda _: library().play(given, certificate, 200, 200), range(16)))
        self.assertEqual([it == samples for it in played], [True] * 16)


class Memory(unittest.TestCase):
    """Stacks that are small, and allocations that fail."""

    def test_a_call_needs_little_stack(self):
        program = compiled(ROOT / "tests/used_stack.c", "used_stack", ["-D_POSIX_C_SOURCE=200809L", folder() / "lib/libmetaplay.a", "-lpthread"])
        stated = re.search(r"stack has (\d+) KiB left", (ROOT / "include/metaplay.h").read_text(encoding="utf-8"))
        for name in NAMES:
            done = subprocess.run([program, SAMPLES / name, "200"], capture_output=True, text=True, check=True)
            *outcomes, used = map(int, done.stdout.split())
            self.assertEqual(outcomes, [SHOW.REJECTED] * 5 + [SHOW.DONE] if name == HELD_OBJECT else [SHOW.DONE] * 6, name)
            self.assertLess(used, 1024 * int(stated[1]), name)

    def test_each_block_is_freed_and_none_is_misused(self):
        words = ["valgrind", "-q", "--leak-check=full", "--errors-for-leak-kinds=all", "--error-exitcode=9", linked_show()]
        for name in ("paths.emf", "bitmaps.wmf", "lines.wmf"):
            self.assertEqual(ran([*words, SAMPLES / name, "24", "20"]), shown(name, 24, 20))

    def test_a_play_holds_no_second_image(self):
        side = 4096
        within = 3 * side * side + (12 << 20)
        words = [str(it) for it in (linked_show(), SAMPLES / "wheel.wmf", side, side)]
        done = subprocess.run(words, capture_output=True, check=False, preexec_fn=lambda: resource.setrlimit(resource.RLIMIT_AS, (within, within)))
        self.assertEqual((done.returncode, done.stderr), (0, b""))
        self.assertTrue(done.stdout == shown("wheel.wmf", side, side).out)

    def test_each_failed_allocation_ends_without_an_image(self):
        preload = folder() / "fail_growth.so"
        subprocess.run(["cc", "-shared", "-fPIC", "-O1", ROOT / "tests/fail_growth.c", "-ldl", "-o", preload], check=True)
        for name in ("dot.wmf", "paths.emf"):
            words = [loading_show(), SAMPLES / name, "24", "20"]
            whole, failed = ran(words), 0
            for number in range(1, 200):
                mark = folder() / "refused"
                mark.unlink(missing_ok=True)
                environment = {"LD_PRELOAD": str(preload), "REFUSE_GROWTH": str(number), "REFUSED_GROWTH": str(mark)}
                done = subprocess.run([str(it) for it in words], capture_output=True, check=False, env=environment)
                if not mark.exists():
                    break
                told = Answer(done.returncode, done.stdout, done.stderr)
                failed += told.status == 4
                self.assertIn(told, [whole, Answer(4, b"", b"show: out of memory\n"), Answer(3, b"", b"show: cannot read\n")])
            self.assertLess(number, 199)
            self.assertGreater(failed, 4)


if __name__ == "__main__":
    unittest.main()
