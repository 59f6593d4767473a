"""The command `certify`: a certificate for each file, a line about each, and what is kept, stored or left alone."""

import hashlib
import json
import os
import pathlib
import subprocess
import unittest

from built import DOT, SAMPLES, Answer, answer, for_each_program
from commands_test import DOT_CERT, DOT_REPORT, CommandTest
from metafile.files import WMF_END, placeable_file, wmf_record
from program_test import CANNOT_READ, CANNOT_WRITE

# A placeable file whose first record the player doesn't have: META_EXTTEXTOUT, function 0x0A32, which is 2610.
TEXT = placeable_file([wmf_record(0x0A32), WMF_END])

TAKEN = "the certificate's name is taken"


def digest(given):
    """The SHA-256 of bytes."""
    return hashlib.sha256(given).hexdigest()


def line_of(members):
    """A line with these members."""
    return json.dumps(dict(sorted(members.items())), separators=(",", ":"), ensure_ascii=False).encode() + b"\n"


def certified(name, path, report=DOT_REPORT, file=DOT, certificate=DOT_CERT):
    """The line about a file with a certificate at a path."""
    more = {"certificate": path, "certificate_sha256": digest(certificate), "error": None, "file": name, "file_sha256": digest(file)}
    return line_of(json.loads(report) | more)


def rejected(name, file, report, record_name=None):
    """The line about a rejected file."""
    more = {"certificate": None, "certificate_sha256": None, "error": None, "file": name, "file_sha256": digest(file), "record_name": record_name}
    return line_of(report | more)


def failed(name, error, path=None, file=None):
    """The line about a file with neither a certificate nor a rejection."""
    file_digest = None if file is None else digest(file)
    return line_of({"accepted": None, "certificate": path, "certificate_sha256": None, "error": error, "file": name, "file_sha256": file_digest})


TEXT_REPORT = {"accepted": False, "code": 15, "fault": "Unsupported", "number": 2610, "record": 0}


class CertifyTest(CommandTest):
    """Tests with a folder for certificates."""

    def setUp(self):
        super().setUp()
        self.file("dot.wmf", DOT)
        self.file("text.wmf", TEXT)
        os.mkdir(self.path("out"))

    def path(self, *parts):
        """A path in the folder."""
        return os.path.join(self.folder, *parts)

    def told(self, program, *words):
        """What `certify` answers in the folder, for surfaces of at most 4 by 4."""
        return answer(program, ["certify", "--out-dir", "out", "4", "4", *words], cwd=self.folder)

    def stored(self):
        """The names and the bytes of what is in the folder for certificates."""
        return {path.name: path.read_bytes() for path in pathlib.Path(self.path("out")).iterdir() if path.is_file() and not path.is_symlink()}


class Lines(CertifyTest):
    """What is written about each file."""

    def setUp(self):
        super().setUp()
        os.mkfifo(self.path("pipe"))
        os.symlink("/dev/zero", self.path("device.wmf"))
        os.mkdir(self.path("folder"))
        self.file("folder/dot.wmf", DOT)

    @for_each_program
    def test_each_file_has_its_line_in_order(self, program):
        self.file("empty.wmf", b"")
        empty = {"accepted": False, "code": 2, "fault": "NotMetafile", "number": None, "record": None}
        dot, text = certified("dot.wmf", "out/dot.wmf.mpc"), rejected("text.wmf", TEXT, TEXT_REPORT, "META_EXTTEXTOUT")
        nothing = rejected("empty.wmf", b"", empty)
        self.assertEqual(self.told(program, "text.wmf", "dot.wmf", "empty.wmf"), Answer(1, text + dot + nothing, b""))
        self.assertEqual(self.told(program, "dot.wmf"), Answer(0, dot, b""))
        self.assertEqual(self.stored(), {"dot.wmf.mpc": DOT_CERT})

    @for_each_program
    def test_a_certificate_is_that_of_prepare(self, program):
        names = [str(path) for path in sorted(SAMPLES.iterdir()) if path.suffix in (".wmf", ".emf")]
        for words in ([], ["--profile", "print", "--allow", "held-deletion"]):
            told = answer(program, ["certify", "--out-dir", "out", "300", "200", "--replace", *words, *names], cwd=self.folder)
            lines = [json.loads(line) for line in told.out.splitlines()]
            self.assertEqual([line["file"] for line in lines], names)
            for line in lines:
                wanted = answer(program, ["prepare", line["file"], "300", "200", "one", *words], cwd=self.folder)
                self.assertEqual(line["accepted"], wanted.status == 0, line)
                if line["accepted"]:
                    certificate = pathlib.Path(self.path("one")).read_bytes()
                    self.assertEqual(pathlib.Path(self.path(line["certificate"])).read_bytes(), certificate)
                    report = answer(program, ["check", line["file"], "one"], cwd=self.folder).out
                    given = pathlib.Path(line["file"]).read_bytes()
                    self.assertEqual(line_of(line), certified(line["file"], line["certificate"], report, given, certificate))

    @for_each_program
    def test_files_that_are_not_read(self, program):
        odd = failed("a\ufffd\ufffd.wmf", "the name is not UTF-8")
        wanted = failed("nothing.wmf", "cannot read") + odd
        wanted += b"".join(failed(name, "not a plain file") for name in ("pipe", "folder", "device.wmf", "..", "/"))
        wanted += certified("dot.wmf", "out/dot.wmf.mpc")
        told = self.told(program, "nothing.wmf", b"a\xff\xc3.wmf", "pipe", "folder", "device.wmf", "..", "/", "dot.wmf")
        self.assertEqual(told, Answer(3, wanted, CANNOT_READ.err))

    @for_each_program
    def test_a_folder_that_is_not_there(self, program):
        told = answer(program, ["certify", "--out-dir", "none", "4", "4", "text.wmf", "dot.wmf"], cwd=self.folder)
        wanted = rejected("text.wmf", TEXT, TEXT_REPORT, "META_EXTTEXTOUT") + failed("dot.wmf", "cannot write", "none/dot.wmf.mpc", DOT)
        self.assertEqual(told, Answer(3, wanted, CANNOT_WRITE.err))

    @for_each_program
    def test_paths_of_certificates(self, program):
        for folder, path in [("out", "out/dot.wmf.mpc"), ("out/", "out/dot.wmf.mpc"), (".", "./dot.wmf.mpc"), ("", "dot.wmf.mpc")]:
            told = answer(program, ["certify", f"--out-dir={folder}", "4", "4", "folder/dot.wmf"], cwd=self.folder)
            self.assertEqual(told, Answer(0, certified("folder/dot.wmf", path), b""))
            self.assertEqual(self.kept(self.path(path)), DOT_CERT)

    @for_each_program
    def test_an_output_that_is_full(self, program):
        with open("/dev/full", "wb") as full:
            words = [program, "certify", "--out-dir", "out", "4", "4", "dot.wmf"]
            ran = subprocess.run(words, cwd=self.folder, stdout=full, stderr=subprocess.PIPE)
        self.assertEqual(Answer(ran.returncode, b"", ran.stderr), CANNOT_WRITE)

    @for_each_program
    def test_wrong_usage(self, program):
        for words, text in [
            (["--out-dir", "out", "4", "4", "stdin"], b"certify doesn't read standard input"),
            (["--out-dir", "out", "4", "4", "dot.wmf", "stdin"], b"certify doesn't read standard input"),
            (["--out-dir", "out", "4", "4"], b"were not provided"),
            (["4", "4", "dot.wmf"], b"were not provided"),
            (["--out-dir", "out", "0", "4", "dot.wmf"], b"0 is not in 1..=8192"),
            (["--out-dir", "out", "4", "4", "--allow", "emf-plus", "dot.wmf"], b"--profile print"),
        ]:
            told = answer(program, ["certify", *words], cwd=self.folder)
            self.assertEqual((told.status, told.out), (2, b""), words)
            self.assertIn(text, told.err, words)
        self.assertEqual(self.stored(), {})


if __name__ == "__main__":
    unittest.main()
