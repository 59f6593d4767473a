"""What `certify` finds in its folder: it keeps what is right, and leaves everything else alone."""

import os
import pathlib
import stat
import subprocess
import tempfile
import unittest

from built import DOT, Answer, answer, for_each_program
from certify_test import TAKEN, CertifyTest, certified, failed
from commands_test import DOT_CERT
from metafile.files import WMF_END, placeable_file
from program_test import CANNOT_WRITE

# A function in place of the C library's link(2), on a file system that has no links.
HAS_NO_LINKS = b"""
#include <errno.h>
int link(const char *from, const char *to)
{
    (void)from;
    (void)to;
    errno = EPERM;
    return -1;
}
"""

# One in whose place another process takes the name first.
IS_TOO_LATE = b"""
#include <fcntl.h>
#include <sys/syscall.h>
#include <unistd.h>
int link(const char *from, const char *to)
{
    int file = open(to, O_WRONLY | O_CREAT | O_EXCL, 0666);
    write(file, "other", 5);
    close(file);
    return syscall(SYS_linkat, AT_FDCWD, from, AT_FDCWD, to, 0);
}
"""


def preloaded(source, folder):
    """The environment with functions in place of the C library's."""
    path = os.path.join(folder, "functions.so")
    subprocess.run(["cc", "-shared", "-fPIC", "-x", "c", "-o", path, "-"], input=source, check=True)
    return os.environ | {"LD_PRELOAD": path}


class Kept(CertifyTest):
    """What is there."""

    @for_each_program
    def test_a_certificate_that_is_right_is_kept(self, program):
        """It isn't written again, though it may be another than `prepare` makes: this one allows two writes more."""
        larger = DOT_CERT[:12] + (3).to_bytes(8, "little") + DOT_CERT[20:]
        for given, writes in [(DOT_CERT, 1), (larger, 3)]:
            path = pathlib.Path(self.file("out/dot.wmf.mpc", given))
            os.utime(path, (1, 1))
            for words in ([], ["--replace"]):
                report = answer(program, ["check", "dot.wmf", "out/dot.wmf.mpc"], cwd=self.folder).out
                self.assertIn(b'"writes":%d}' % writes, report)
                wanted = Answer(0, certified("dot.wmf", "out/dot.wmf.mpc", report, DOT, given), b"")
                self.assertEqual(self.told(program, *words, "dot.wmf"), wanted)
                self.assertEqual((path.read_bytes(), path.stat().st_mtime), (given, 1))

    @for_each_program
    def test_what_else_has_the_name_stays(self, program):
        wanted = Answer(3, failed("dot.wmf", TAKEN, "out/dot.wmf.mpc", DOT), CANNOT_WRITE.err)
        prepare = lambda *words: answer(program, ["prepare", "dot.wmf", *words], cwd=self.folder)  # noqa: E731
        prepare("4", "5", "wide.mpc")
        prepare("4", "4", "print.mpc", "--profile", "print")
        others = [b"", b"text", DOT, DOT_CERT[:-1], DOT_CERT + b"\0", self.kept(self.path("wide.mpc")), self.kept(self.path("print.mpc"))]
        for given in others:
            self.file("out/dot.wmf.mpc", given)
            self.assertEqual(self.told(program, "dot.wmf"), wanted, given)
            self.assertEqual(self.stored(), {"dot.wmf.mpc": given})
            self.assertEqual(self.told(program, "--replace", "dot.wmf"), Answer(0, certified("dot.wmf", "out/dot.wmf.mpc"), b""))
            self.assertEqual(self.stored(), {"dot.wmf.mpc": DOT_CERT})

    @for_each_program
    def test_what_is_no_plain_file_stays(self, program):
        """Links, folders and FIFOs, with `--replace` too."""
        aside = self.file("aside", b"as it was")
        path = self.path("out", "dot.wmf.mpc")
        wanted = Answer(3, failed("dot.wmf", TAKEN, "out/dot.wmf.mpc", DOT), CANNOT_WRITE.err)
        makers = [(lambda: os.symlink(aside, path), os.unlink), (lambda: os.mkdir(path), os.rmdir), (lambda: os.mkfifo(path), os.unlink)]
        makers.append((lambda: os.symlink("nowhere", path), os.unlink))
        for make, remove in makers:
            make()
            kind = stat.S_IFMT(os.lstat(path).st_mode)
            for words in ([], ["--replace"]):
                self.assertEqual(self.told(program, *words, "dot.wmf"), wanted)
                self.assertEqual(stat.S_IFMT(os.lstat(path).st_mode), kind)
            remove(path)
        self.assertEqual(self.kept(aside), b"as it was")
        self.assertEqual(self.stored(), {})

    @for_each_program
    def test_the_file_itself_is_not_replaced(self, program):
        path = self.file("out/dot.wmf.mpc", DOT)
        os.symlink(path, self.path("in.wmf"))
        os.rename(self.path("in.wmf"), self.path("dot.wmf"))
        wanted = Answer(3, failed("dot.wmf", TAKEN, "out/dot.wmf.mpc", DOT), CANNOT_WRITE.err)
        self.assertEqual(self.told(program, "--replace", "dot.wmf"), wanted)
        self.assertEqual(self.kept(path), DOT)

    @for_each_program
    def test_two_files_with_one_name(self, program):
        """The first has its certificate. One with the same bytes has it too, and another one hasn't."""
        other = placeable_file([WMF_END])
        for folder, given in [("a", DOT), ("b", other), ("c", DOT)]:
            os.makedirs(self.path(folder), exist_ok=True)
            self.file(f"{folder}/dot.wmf", given)
        lines = [certified("a/dot.wmf", "out/dot.wmf.mpc"), failed("b/dot.wmf", TAKEN, "out/dot.wmf.mpc", other), certified("c/dot.wmf", "out/dot.wmf.mpc")]
        told = self.told(program, "a/dot.wmf", "b/dot.wmf", "c/dot.wmf")
        self.assertEqual(told, Answer(3, b"".join(lines), CANNOT_WRITE.err))
        os.unlink(self.path("out", "dot.wmf.mpc"))


class Storing(CertifyTest):
    """How a certificate gets its name."""

    @for_each_program
    def test_a_file_system_without_links(self, program):
        with tempfile.TemporaryDirectory() as folder:
            told = answer(program, ["certify", "--out-dir", "out", "4", "4", "dot.wmf"], cwd=self.folder, env=preloaded(HAS_NO_LINKS, folder))
        self.assertEqual(told, Answer(0, certified("dot.wmf", "out/dot.wmf.mpc"), b""))
        self.assertEqual(self.stored(), {"dot.wmf.mpc": DOT_CERT})

    @for_each_program
    def test_another_process_takes_the_name_first(self, program):
        with tempfile.TemporaryDirectory() as folder:
            told = answer(program, ["certify", "--out-dir", "out", "4", "4", "dot.wmf"], cwd=self.folder, env=preloaded(IS_TOO_LATE, folder))
        self.assertEqual(told, Answer(3, failed("dot.wmf", TAKEN, "out/dot.wmf.mpc", DOT), CANNOT_WRITE.err))
        self.assertEqual(self.stored(), {"dot.wmf.mpc": b"other"})

    @for_each_program
    def test_the_mode_of_a_certificate(self, program):
        for mask in (0o022, 0o077):
            old = os.umask(mask)
            self.addCleanup(os.umask, old)
            self.told(program, "dot.wmf")
            path = pathlib.Path(self.path("out", "dot.wmf.mpc"))
            self.assertEqual(stat.S_IMODE(path.stat().st_mode), 0o666 & ~mask)
            path.unlink()
            os.umask(old)

    @for_each_program
    def test_many_processes_with_the_same_names(self, program):
        """Each certificate is whole, and each line is right, whoever stored it."""
        names = [self.file(f"{number}.wmf", DOT) for number in range(30)]
        words = [program, "certify", "--out-dir", "out", "4", "4", *names]
        runs = [subprocess.Popen(words, cwd=self.folder, stdout=subprocess.PIPE, stderr=subprocess.PIPE) for _ in range(4)]
        for run in runs:
            out, _ = run.communicate(timeout=60)
            for name, line in zip(names, out.splitlines(keepends=True), strict=True):
                path = f"out/{os.path.basename(name)}.mpc"
                self.assertIn(line, [certified(name, path), failed(name, TAKEN, path, DOT)])
        self.assertEqual(self.stored(), {f"{number}.wmf.mpc": DOT_CERT for number in range(30)})


if __name__ == "__main__":
    unittest.main()
