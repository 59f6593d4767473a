"""The recipes over `metaplay certify` on one machine: a folder, a file, and the summary of their lines."""

import json
import os
import signal
import subprocess
import unittest

from built import DOT, PROGRAMS, ROOT, SAMPLES
from recipe_commands import WANTED, commands, draw, verdicts
from recipes_test import RECIPES, SLOW, RecipesTest, has_command, is_running, needs, waited

FILES = RECIPES / "certify-files"

# What a line has if its file has no answer.
NO_ANSWER = {"accepted": None, "certificate": None, "certificate_sha256": None, "file_sha256": None}

# Lines of `info` and of `certify`, and others that are of neither sort.
LINES = [
    b'{"file":"a","plays":true,"format":"emf","description":"Ink\\u001bscape\\u0000A picture"}',
    b'{"file":"b","plays":false,"fault":"Unsupported","record_name":"EMR_PIE","format":"emf","description":null}',
    b'{"file":"c","plays":null,"error":"cannot read","format":null,"description":null}',
    b'{"file":"d","accepted":true,"format":"wmf"}',
    b'{"file":"e","accepted":false,"fault":"HeldObject","record_name":null}',
    b'{"file":"f","accepted":false,"fault":"HeldObject","record_name":null}',
    b"",
]
ODD = [b"[]", b"{}", b'{"file":1}', b"\xff", b"[" * 100000, b'{"file":"g"}', b'{"file":"g","accepted":1}', b'{"file":"g","accepted":false}']

TABLE = """\
6 files: 2 accepted, 3 rejected, 1 in error

fault or error            files
HeldObject                    2
Unsupported EMR_PIE           1
cannot read                   1

format        accepted    rejected    in error
(not said)           0           2           1
emf                  1           1           0
wmf                  1           0           0

program         accepted    rejected    in error
(not said)             0           1           1
Ink\\x1bscape           1           0           0

"""


class CertifyRecipes(RecipesTest):
    """A folder of their own, with drawings."""

    def setUp(self):
        super().setUp()
        if not has_command("certify"):
            self.skipTest("the program has no command certify")
        draw(self.folder)
        (self.folder / "certificates").mkdir()

    def certified(self, names, *words, **settings):
        """What `certify-files` answers for these names."""
        return self.run_words(FILES, "certificates", *words, given=b"".join(os.fsencode(name) + b"\0" for name in names), **settings)


@needs("xargs", "find")
class Folder(CertifyRecipes):
    """`certify-files`."""

    def test_the_command_on_the_page(self):
        certify, *_ = commands("A folder, in parallel")
        os.mkfifo(self.folder / "drawings" / "pipe.wmf")
        lines = []
        for _ in range(2):
            # The second time the certificates are there.
            self.assertEqual(self.run_words("sh", "-c", certify), (1, b"", b""))
            lines.append(sorted((self.folder / "certified.jsonl").read_bytes().splitlines()))
            self.assertEqual(verdicts(b"\n".join(lines[-1])), WANTED)
        self.assertEqual(*lines)
        self.assertEqual(len(os.listdir(self.folder / "certificates")), 4)

    @needs("jq")
    def test_those_that_are_not_accepted(self):
        certify, listed = commands("A folder, in parallel")
        self.run_words("sh", "-c", certify)
        status, out, err = self.run_words("sh", "-c", listed)
        told = ["drawings/below/HELD file.WMF: HeldObject", "drawings/text.wmf: Unsupported"]
        self.assertEqual((status, sorted(out.decode().splitlines()), err), (0, told, b""))

    def test_long_lines_of_several_processes(self):
        # A control character of a name takes six bytes in a line, so each has more than a pipe takes as a whole.
        folder = "/".join("\1" * 200 for _ in range(4))
        (self.folder / folder).mkdir(parents=True)
        names = [f"{number:04}.wmf" for number in range(700)]
        for name in names:
            (self.folder / folder / name).write_bytes(DOT)
        status, out, err = self.certified([f"{folder}/{name}" for name in names], "64", "64", METAPLAY_JOBS="7")
        self.assertEqual((status, err), (0, b""))
        self.assertGreater(len(min(out.splitlines(), key=len)), 4096)
        self.assertEqual(sorted(verdicts(out)), [f"{folder}/{name}" for name in names])
        self.assertEqual(sorted(os.listdir(self.folder / "certificates")), [f"{name}.mpc" for name in names])

    def test_an_interrupt_ends_all_processes(self):
        program, rooms, process = self.folder / "slow", self.folder / "rooms", self.folder / "process"
        program.write_text(SLOW)
        program.chmod(0o755)
        rooms.mkdir()
        settings = self.settings | {"METAPLAY": str(program), "TMPDIR": str(rooms)}
        words = [FILES, "certificates", "64", "64"]
        # What runs in the background of a shell may ignore interrupts.
        how = {"start_new_session": True, "preexec_fn": lambda: signal.signal(signal.SIGINT, signal.SIG_DFL)}
        with subprocess.Popen(words, stdin=subprocess.PIPE, cwd=self.folder, env=settings, **how) as running:
            running.stdin.write(b"dot.wmf\0")
            running.stdin.close()
            self.assertTrue(waited(lambda: process.exists() and process.read_text().endswith("\n")))
            os.killpg(running.pid, signal.SIGINT)
            self.assertEqual(running.wait(timeout=30), 130)
        self.assertTrue(waited(lambda: not is_running(int(process.read_text()))))
        self.assertEqual(list(rooms.iterdir()), [])

    def test_no_files(self):
        self.assertEqual(self.certified([], "64", "64"), (0, b"", b""))

    def test_files_that_have_no_answer(self):
        odd = os.fsdecode(b"caf\xe9.wmf")
        (self.folder / odd).write_bytes(DOT)
        names = ["no file.wmf", "drawings", odd, "-x.wmf", "stdin"]
        (self.folder / "-x.wmf").write_bytes(DOT)
        status, out, _ = self.certified([f"./{name}" for name in names], "64", "64")
        errors = {report["file"]: report["error"] for report in map(json.loads, out.splitlines())}
        wanted = dict.fromkeys(["./no file.wmf", "./stdin"], "cannot read") | {"./drawings": "not a plain file", "./-x.wmf": None}
        self.assertEqual((status, errors), (1, wanted | {"./caf\ufffd.wmf": "the name is not UTF-8"}))

    def test_wrong_usage(self):
        self.assertEqual(self.run_words(FILES, "certificates", "64")[:2], (2, b""))
        for words in (["64", "x"], ["64", "64", "--profile", "paper"], ["64", "64", "--allow", "held-deletion"]):
            status, out, err = self.certified(["dot.wmf"], *words)
            self.assertEqual((status, out, b"metaplay certify" in err or b"'x'" in err), (2, b"", True), err)
        self.assertEqual(self.certified(["dot.wmf"], "64", "64", METAPLAY="no-program"), (3, b"", b"certify-files: no-program is missing\n"))

    def test_files_without_a_line_are_said(self):
        program = self.folder / "ends"
        program.write_text("#!/bin/sh\necho '{}'\nkill -9 $$\n")
        program.chmod(0o755)
        status, out, err = self.certified(["a.wmf", "b.wmf", "c.wmf"], "64", "64", METAPLAY=str(program))
        self.assertEqual((status, out), (3, b"{}\n"))
        self.assertIn(b"certify-files: 2 files have no line\n", err)

    def test_a_full_disk_and_no_folder(self):
        names = b"dot.wmf\0"
        with open("/dev/full", "wb") as full:
            streams = {"input": names, "stdout": full, "stderr": subprocess.DEVNULL}
            ended = subprocess.run([FILES, "certificates", "64", "64"], **streams, cwd=self.folder, env=self.settings, check=False)
        self.assertEqual(ended.returncode, 3)
        self.assertEqual(self.certified(["dot.wmf"], "64", "64", TMPDIR="/no folder")[:2], (3, b""))


class File(CertifyRecipes):
    """`check-file`."""

    def checked(self, *words, **settings):
        """The status and the line of `check-file`."""
        status, out, _ = self.run_words(RECIPES / "check-file", *words, **settings)
        return status, json.loads(out)

    def test_a_file(self):
        for _ in range(2):
            status, line = self.checked("64", "064", "dot.wmf")
            self.assertEqual((status, line["accepted"], line["file"], line["certificate"]), (0, True, "dot.wmf", "./dot.wmf.mpc"))
        status, line = self.checked("64", "64", "drawings/below/HELD file.WMF")
        self.assertEqual((status, line["fault"], line["record"]), (1, "HeldObject", 5))
        status, line = self.checked("64", "64", "drawings/below/polygons.emf")
        self.assertEqual((status, line["certificate"]), (0, "drawings/below/polygons.emf.mpc"))
        # Another size than that of the certificate, unless it is replaced.
        taken = "the certificate's name is taken"
        self.assertEqual([self.checked("64", side, "dot.wmf")[1]["error"] for side in ("65", "63")], [taken, taken])
        self.assertEqual(self.checked("64", "65", "--replace", "dot.wmf")[1]["max"], [64, 65])
        self.assertEqual(self.run_words(RECIPES / "check-file", "64", "64"), (2, b"", b"usage: check-file W H [OPTION...] FILE\n"))
        self.assertEqual(self.run_words(RECIPES / "check-file", "64", "8193", "dot.wmf")[:2], (2, b""))

    def test_a_file_may_have_the_name_of_an_option(self):
        for name in ("stdin", "--help"):
            (self.folder / name).write_bytes(DOT)
            status, line = self.checked("64", "64", name)
            self.assertEqual((status, line["file"], (self.folder / f"{name}.mpc").exists()), (0, f"./{name}", True))

    def test_a_certificate_that_is_there_goes_by_the_options(self):
        core, fine = (), ("--profile", "print")
        held, plus = ("--allow", "held-deletion"), ("--allow=emf-plus",)
        kinds = [core, fine, (*fine, *held), (*fine, *plus), (*fine, *held, *plus)]
        for made in kinds:
            (self.folder / "dot.wmf.mpc").unlink(missing_ok=True)
            self.assertEqual(self.run_words("./metaplay", "prepare", "dot.wmf", "64", "64", "dot.wmf.mpc", *made)[0], 0)
            for asked in kinds:
                with self.subTest(made=made, asked=asked):
                    status, line = self.checked("64", "64", *asked, "dot.wmf")
                    self.assertEqual((status, line["accepted"]), (0, True) if made == asked else (3, None))

    def test_what_is_not_a_plain_file_stays(self):
        for make in (os.mkfifo, lambda path: path.symlink_to(self.folder / "elsewhere"), os.mkdir):
            make(self.folder / "dot.wmf.mpc")
            self.assertEqual(self.checked("64", "64", "dot.wmf")[0], 3)
            path = self.folder / "dot.wmf.mpc"
            path.rmdir() if path.is_dir() else path.unlink()
        self.assertFalse((self.folder / "elsewhere").exists())

    def test_a_fix_up_that_fails(self):
        fix = self.folder / "fix"
        fix.write_text('#!/bin/sh\necho "no \\"font\\"" >&2\nexit 1\n')
        fix.chmod(0o755)
        status, line = self.checked("64", "64", "dot.wmf", METAPLAY_FIXUP=str(fix))
        self.assertEqual((status, line), (1, NO_ANSWER | {"error": 'no "font"', "file": "dot.wmf"}))
        (self.folder / "dot.wmf.fixed").symlink_to("elsewhere")
        status, line = self.checked("64", "64", "dot.wmf", METAPLAY_FIXUP=str(fix))
        self.assertEqual((status, line), (3, NO_ANSWER | {"error": "dot.wmf.fixed is not a plain file", "file": "dot.wmf"}))


class Summary(CertifyRecipes):
    """`summary`."""

    def summed(self, *words, given=b""):
        """What `summary` answers."""
        status, out, err = self.run_words(RECIPES / "summary", *words, given=given)
        return status, out.decode(), err

    def test_counts(self):
        self.assertEqual(self.summed(given=b"\n".join(LINES)), (0, TABLE.removesuffix("\n"), b""))
        (self.folder / "lines").write_bytes(b"\n".join(LINES))
        (self.folder / "odd").write_bytes(b"\n".join(ODD))
        odd = f"{TABLE}{len(ODD)} lines couldn't be read\n"
        self.assertEqual(self.summed("lines", "odd"), (1, odd, b""))
        self.assertEqual(self.summed("lines", "no file")[:2], (3, ""))

    def test_the_table_on_the_page(self):
        page = (ROOT / "docs" / "RECIPES.md").read_text(encoding="utf-8")
        line, table = page.split("\n$ metaplay info ")[1].split("```")[0].split("\n", 1)
        words, _, _ = line.partition(" | ")
        lines = subprocess.run(f"{PROGRAMS[0]} info {words}", shell=True, capture_output=True, cwd=ROOT, check=False).stdout
        self.assertEqual(self.summed(given=lines), (0, table, b""))

    def test_lines_of_the_program(self):
        lines = self.run_words("./metaplay", "info", "--profile", "print", *sorted(map(str, SAMPLES.glob("*.emf"))), "no file")[1]
        status, out, _ = self.summed(given=lines)
        self.assertEqual((status, out.splitlines()[0]), (0, "8 files: 7 accepted, 0 rejected, 1 in error"))
        lines = self.certified(["drawings/text.wmf", "drawings/dot.wmf", "drawings"], "64", "64")[1]
        status, out, _ = self.summed(given=lines)
        self.assertEqual((status, out.splitlines()[0]), (0, "3 files: 1 accepted, 1 rejected, 1 in error"))
        self.assertIn("\nUnsupported META_EXTTEXTOUT ", out)


if __name__ == "__main__":
    unittest.main()
