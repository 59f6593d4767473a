"""The file that `prepare` writes: it changes as a whole, or not at all."""

import errno
import os
import pathlib
import resource
import shutil
import signal
import stat
import subprocess
import tempfile
import threading
import unittest

from built import DOT, SAMPLES, Answer, answer, for_each_program
from commands_test import DONE, DOT_CERT
from metafile.scripts import WMF
from program_test import CANNOT_WRITE, NOBODY, as_nobody

SAME_FILE = Answer(2, b"", b"metaplay: OUT is FILE\n")

OLD = b"as it was"

# A function in place of the C library's fchmod(2), which says the old mode and the new one.
SAYS_MODE = b"""
#include <stdio.h>
#include <sys/stat.h>
#include <sys/syscall.h>
#include <unistd.h>
int fchmod(int file, mode_t mode)
{
    struct stat now;
    fstat(file, &now);
    dprintf(2, "%o becomes %o\\n", now.st_mode & 07777, mode);
    return syscall(SYS_fchmod, file, mode);
}
"""

# A function in place of the C library's fsync(2): the disk turns out to be full only now, as a quota of NFS may.
IS_FULL_AT_LAST = b"""
#include <errno.h>
int fsync(int file)
{
    (void)file;
    errno = EDQUOT;
    return -1;
}
"""

# Functions in place of the C library's, which say that they are called, and with which file.
SAYS_ORDER = b"""
#include <stdio.h>
#include <sys/syscall.h>
#include <unistd.h>
ssize_t write(int file, const void *bytes, size_t count)
{
    dprintf(2, "write %d\\n", file);
    return syscall(SYS_write, file, bytes, count);
}
int fsync(int file)
{
    dprintf(2, "fsync %d\\n", file);
    return syscall(SYS_fsync, file);
}
int rename(const char *from, const char *to)
{
    dprintf(2, "rename\\n");
    return syscall(SYS_rename, from, to);
}
"""

# A function in place of the C library's rename(2), which fails.
IS_NOT_RENAMED = b"""
#include <errno.h>
int rename(const char *from, const char *to)
{
    (void)from;
    (void)to;
    errno = EPERM;
    return -1;
}
"""

# A function in place of the C library's statx(2): a name that isn't followed can't be looked at, for the reason that LOOK_ERROR has.
IS_NOT_SEEN = b"""
#define _GNU_SOURCE
#include <errno.h>
#include <fcntl.h>
#include <stdlib.h>
#include <sys/stat.h>
#include <sys/syscall.h>
#include <unistd.h>
int statx(int folder, const char *path, int flags, unsigned mask, struct statx *found)
{
    if (flags & AT_SYMLINK_NOFOLLOW) {
        errno = atoi(getenv("LOOK_ERROR"));
        return -1;
    }
    return syscall(SYS_statx, folder, path, flags, mask, found);
}
"""

# The same where a file lies on the device that its name has, the major number behind a comma, and has the inode number behind a third comma, or 7.
IS_ON_A_DEVICE = b"""
#define _GNU_SOURCE
#include <stdlib.h>
#include <string.h>
#include <sys/stat.h>
#include <sys/syscall.h>
#include <unistd.h>
int statx(int folder, const char *path, int flags, unsigned mask, struct statx *found)
{
    int status = syscall(SYS_statx, folder, path, flags, mask, found);
    const char *comma = strchr(path, ',');
    if (status == 0 && comma != NULL) {
        const char *minor = strchr(comma + 1, ',') + 1, *inode = strchr(minor, ',');
        found->stx_ino = inode == NULL ? 7 : strtoull(inode + 1, NULL, 10);
        found->stx_dev_major = atoi(comma + 1);
        found->stx_dev_minor = atoi(minor);
    }
    return status;
}
"""

# So many bytes a run may write into a file, where that is limited.
FEW = 1000


def at_most_few():
    """Has writes of more bytes fail (setrlimit(2), RLIMIT_FSIZE)."""
    signal.signal(signal.SIGXFSZ, signal.SIG_IGN)
    resource.setrlimit(resource.RLIMIT_FSIZE, (FEW, FEW))


class PreparedFile(unittest.TestCase):
    def setUp(self):
        room = tempfile.TemporaryDirectory()
        self.addCleanup(room.cleanup)
        self.folder = pathlib.Path(room.name)
        self.out = self.folder / "out"

    def prepare(self, program, out, given=DOT, **more):
        """What a program answers that prepares a certificate of standard input at 4 by 4."""
        return answer(program, ["prepare", "stdin", "4", "4", out], given, **more)

    def preloading(self, source):
        """An environment in which a program loads a library of this source."""
        room = tempfile.TemporaryDirectory()
        self.addCleanup(room.cleanup)
        library = f"{room.name}/preloaded.so"
        subprocess.run(["cc", "-shared", "-fPIC", "-o", library, "-x", "c", "-"], input=source, check=True)
        return {**os.environ, "LD_PRELOAD": library}

    @for_each_program
    def test_a_file_that_does_not_reach_the_disk_is_not_renamed(self, program):
        settings = self.preloading(IS_FULL_AT_LAST)
        self.out.unlink(missing_ok=True)
        self.assertEqual(self.prepare(program, self.out, env=settings), CANNOT_WRITE)
        self.assertEqual(self.names(), [])
        self.out.write_bytes(OLD)
        self.assertEqual(self.prepare(program, self.out, env=settings), CANNOT_WRITE)
        self.assertEqual((self.names(), self.out.read_bytes()), (["out"], OLD))

    @for_each_program
    def test_what_is_no_plain_file_is_not_forced_to_the_disk(self, program):
        self.assertEqual(self.prepare(program, "/dev/null", env=self.preloading(IS_FULL_AT_LAST)), DONE)

    @for_each_program
    def test_the_new_file_is_on_the_disk_before_it_is_renamed(self, program):
        settings = self.preloading(SAYS_ORDER)
        for old in (None, OLD):
            self.out.unlink(missing_ok=True)
            if old:
                self.out.write_bytes(old)
            said = self.prepare(program, self.out, env=settings)
            *writes, synced, renamed = said.err.decode().splitlines()
            self.assertEqual((said.status, renamed, self.out.read_bytes()), (0, "rename", DOT_CERT))
            self.assertEqual({it.replace("write", "fsync") for it in writes}, {synced})

    @for_each_program
    def test_a_long_certificate_is_written_at_once(self, program):
        # It is all there before the file is opened: a system call for each part of it would take longer than all else.
        given = WMF.file(WMF.records("5000x pixel 1 1"), 4, 0)
        said = self.prepare(program, self.out, given, env=self.preloading(SAYS_ORDER))
        self.assertEqual([line.split()[0] for line in said.err.decode().splitlines()], ["write", "fsync", "rename"])
        self.assertEqual(self.out.stat().st_size, 40 + 20 * 5000)

    @for_each_program
    def test_a_file_that_cannot_be_renamed_is_removed(self, program):
        settings = self.preloading(IS_NOT_RENAMED)
        for old in (None, OLD):
            self.out.unlink(missing_ok=True)
            if old:
                self.out.write_bytes(old)
            self.assertEqual(self.prepare(program, self.out, env=settings), CANNOT_WRITE)
            self.assertEqual(self.names(), ["out"] if old else [])
            self.assertEqual(self.out.read_bytes() if old else None, old)

    @unittest.skipUnless(os.getuid() == 0, "only the superuser can run a program as another user")
    @for_each_program
    def test_a_file_of_another_user_in_a_sticky_folder_stays(self, program):
        copy = self.copied(program)
        self.folder.chmod(0o1777)
        self.out.write_bytes(OLD)
        self.out.chmod(0o666)
        self.assertEqual(self.prepare(copy, self.out, preexec_fn=as_nobody), CANNOT_WRITE)
        self.assertEqual((self.out.read_bytes(), self.names()), (OLD, ["out"]))

    @for_each_program
    def test_a_file_that_may_not_be_written_stays(self, program):
        copy = self.copied(program)
        self.folder.chmod(0o777)
        for mode in (0o444, 0o555, 0o000):
            self.out.unlink(missing_ok=True)
            self.out.write_bytes(OLD)
            if os.getuid() == 0:
                os.chown(self.out, NOBODY, NOBODY)
            self.out.chmod(mode)
            self.assertEqual(self.prepare(copy, self.out, preexec_fn=as_nobody), CANNOT_WRITE, oct(mode))
            self.out.chmod(0o600)
            self.assertEqual((self.out.read_bytes(), self.names()), (OLD, ["out"]))

    @unittest.skipUnless(os.getuid() == 0, "only the superuser can run a program as another user")
    @for_each_program
    def test_a_file_of_another_user_is_replaced_if_that_user_may_write_it(self, program):
        # The folder lets anyone rename a file: who may write the old one decides.
        copy = self.copied(program)
        self.folder.chmod(0o777)
        for mode in (0o644, 0o755, 0o620, 0o606, 0o666):
            may_write = mode & 0o002 != 0
            self.out.unlink(missing_ok=True)
            self.out.write_bytes(OLD)
            self.out.chmod(mode)
            self.assertEqual(self.prepare(copy, self.out, preexec_fn=as_nobody), DONE if may_write else CANNOT_WRITE, oct(mode))
            self.assertEqual((self.out.read_bytes(), self.names()), (DOT_CERT if may_write else OLD, ["out"]))

    @for_each_program
    def test_a_name_that_cannot_be_looked_at_is_not_free(self, program):
        settings = self.preloading(IS_NOT_SEEN)
        for error in (errno.ELOOP, errno.ENOTDIR, errno.EACCES, errno.EIO, errno.ENAMETOOLONG, errno.ESTALE, errno.EINVAL):
            for old in (None, OLD):
                self.out.unlink(missing_ok=True)
                if old:
                    self.out.write_bytes(old)
                told = self.prepare(program, self.out, env=settings | {"LOOK_ERROR": str(error)})
                self.assertEqual(told, CANNOT_WRITE, errno.errorcode[error])
                self.assertEqual((self.names(), self.out.read_bytes() if old else None), (["out"] if old else [], old))

    @for_each_program
    def test_a_loop_of_links_and_a_part_that_is_no_folder(self, program):
        for name in ("one", "other", "file"):
            (self.folder / name).unlink(missing_ok=True)
        (self.folder / "one").symlink_to("other")
        (self.folder / "other").symlink_to("one")
        (self.folder / "file").write_bytes(OLD)
        for name in ("one", "one/out", "file/out", "file/", "no/out"):
            self.assertEqual(self.prepare(program, name, cwd=self.folder), CANNOT_WRITE, name)
            self.assertEqual((self.names(), (self.folder / "file").read_bytes()), (["file", "one", "other"], OLD))
            self.assertEqual([os.readlink(self.folder / name) for name in ("one", "other")], ["other", "one"])

    @for_each_program
    def test_a_file_of_another_device_is_another_file(self, program):
        settings = self.preloading(IS_ON_A_DEVICE)
        # Inode numbers have 64 bits: 4,294,967,303 is 7 and 2^32, and 1,099,511,627,783 is 7 and 2^40.
        inodes = ["1,2,8", "1,2,4294967303", "1,2,1099511627783", "1,2,263", "1,2,0"]
        for others, wanted in [(["1,2", "01,2", "1,02", "1,2,7"], SAME_FILE), (["2,2", "1,3", "2,1", "257,2", *inodes], DONE)]:
            for other in others:
                file, out = self.folder / "file,1,2", self.folder / f"out,{other}"
                file.write_bytes(DOT)
                out.write_bytes(OLD)
                told = answer(program, ["prepare", file, "4", "4", out], env=settings)
                self.assertEqual((told, out.read_bytes()), (wanted, DOT_CERT if wanted == DONE else OLD), other)

    @unittest.skipUnless(os.access("/dev/shm", os.W_OK), "there is no second file system")
    @for_each_program
    def test_a_file_of_another_file_system_is_written(self, program):
        with tempfile.TemporaryDirectory(dir="/dev/shm") as folder:
            file, out = self.folder / "file", pathlib.Path(folder, "out")
            self.assertNotEqual(self.folder.stat().st_dev, out.parent.stat().st_dev)
            file.write_bytes(DOT)
            for _ in range(2):
                self.assertEqual(answer(program, ["prepare", file, "4", "4", out]), DONE)
                self.assertEqual((os.listdir(folder), out.read_bytes()), (["out"], DOT_CERT))

    def copied(self, program):
        """A copy of a program that anyone may run."""
        folder = tempfile.mkdtemp()
        self.addCleanup(shutil.rmtree, folder)
        os.chmod(folder, 0o755)
        copy = shutil.copy(program, folder)
        os.chmod(copy, 0o755)
        return copy

    def names(self):
        """The names in the folder."""
        return sorted(os.listdir(self.folder))

    @for_each_program
    def test_the_file_is_there_and_no_other(self, program):
        self.out.unlink(missing_ok=True)
        for _ in range(2):
            self.assertEqual(self.prepare(program, self.out), DONE)
            self.assertEqual(self.out.read_bytes(), DOT_CERT)
            self.assertEqual(self.names(), ["out"])

    @for_each_program
    def test_a_new_file_has_the_mode_that_the_umask_leaves(self, program):
        self.out.unlink(missing_ok=True)
        self.assertEqual(self.prepare(program, self.out, preexec_fn=lambda: os.umask(0o027)), DONE)
        self.assertEqual(self.out.stat().st_mode & 0o7777, 0o640)

    @for_each_program
    def test_an_old_file_keeps_its_mode(self, program):
        for mode in [0o600, 0o644, 0o666, 0o751, 0o200]:
            self.out.write_bytes(OLD)
            self.out.chmod(mode)
            self.assertEqual(self.prepare(program, self.out), DONE)
            self.assertEqual((self.out.stat().st_mode & 0o7777, self.out.read_bytes()), (mode, DOT_CERT))

    @for_each_program
    def test_a_new_file_does_not_run_as_its_owner(self, program):
        for mode in [0o4777, 0o2755, 0o1644, 0o6711]:
            self.out.write_bytes(OLD)
            self.out.chmod(mode)
            self.assertEqual(self.prepare(program, self.out), DONE)
            self.assertEqual(self.out.stat().st_mode & 0o7777, mode & 0o777)

    @for_each_program
    def test_nobody_else_can_open_a_new_file_before_it_has_its_mode(self, program):
        self.out.write_bytes(OLD)
        self.out.chmod(0o640)
        said = self.prepare(program, self.out, env=self.preloading(SAYS_MODE), preexec_fn=lambda: os.umask(0))
        self.assertEqual(said, Answer(0, b"", b"600 becomes 640\n"))
        self.assertEqual(self.out.stat().st_mode & 0o7777, 0o640)

    @for_each_program
    def test_names_in_the_folder_that_is_current(self, program):
        (self.folder / "more").mkdir(exist_ok=True)
        for name in ["out", "./out", "more/../out", "a" * 255, "é\t'\""]:
            self.assertEqual(self.prepare(program, name, cwd=self.folder), DONE, name)
            self.assertEqual((self.folder / name).read_bytes(), DOT_CERT)
            (self.folder / name).unlink()
        self.assertEqual(self.names(), ["more"])

    @for_each_program
    def test_paths_that_are_too_long_cannot_be_written(self, program):
        for name in ["a" * 256, "./" * 2046 + "out", "./" * 2047 + "out", "./" * 5000 + "out"]:
            wanted = DONE if len(name) == 4095 else CANNOT_WRITE
            self.assertEqual(self.prepare(program, name, cwd=self.folder), wanted, len(name))

    @for_each_program
    def test_names_that_are_taken_are_left_as_they_are(self, program):
        # 10,000 names are tried.
        for path in list(self.folder.iterdir()):
            path.unlink()
        taken = []
        for count in (0, 1, 2, 9, 10, 11, 100, 1_000, 2_000, 9_999, 10_000):
            for nth in range(len(taken), count):
                taken.append(f".metaplay-{nth}")
                (self.folder / taken[nth]).write_bytes(OLD)
            self.out.unlink(missing_ok=True)
            is_free = count < 10_000
            self.assertEqual(self.prepare(program, self.out), DONE if is_free else CANNOT_WRITE, count)
            self.assertEqual(self.names(), sorted([*taken, "out"] if is_free else taken))
            self.assertEqual({(self.folder / name).read_bytes() for name in taken}, {OLD} if taken else set())

    @for_each_program
    def test_a_link_leads_to_the_file_that_is_written(self, program):
        for target in [self.folder / "there", self.folder / "new"]:
            if target.name == "there":
                target.write_bytes(OLD)
            self.out.unlink(missing_ok=True)
            self.out.symlink_to(target)
            self.assertEqual(self.prepare(program, self.out), DONE)
            self.assertTrue(self.out.is_symlink())
            self.assertEqual(target.read_bytes(), DOT_CERT)
            target.unlink()

    @for_each_program
    def test_a_fifo_is_written_as_it_is(self, program):
        self.out.unlink(missing_ok=True)
        os.mkfifo(self.out)
        found = []
        reader = threading.Thread(target=lambda: found.append(self.out.read_bytes()))
        reader.start()
        self.assertEqual(self.prepare(program, self.out), DONE)
        reader.join()
        self.assertEqual((found, self.out.is_fifo()), ([DOT_CERT], True))
        self.out.unlink()

    @for_each_program
    def test_a_write_that_fails_leaves_the_old_file_and_no_other(self, program):
        many = WMF.file(WMF.records("; ".join(f"pixel {x} 0" for x in range(200))), 8, 2)
        for old in [OLD, None]:
            self.out.unlink(missing_ok=True)
            if old:
                self.out.write_bytes(old)
            self.assertEqual(self.prepare(program, self.out, many, preexec_fn=at_most_few), CANNOT_WRITE)
            self.assertEqual(self.names(), ["out"] if old else [])
            self.assertEqual(self.out.read_bytes() if old else None, old)

    @for_each_program
    def test_a_folder_that_takes_no_file(self, program):
        copy = self.copied(program)
        self.out.write_bytes(OLD)
        self.out.chmod(0o666)
        self.folder.chmod(0o755)
        self.assertEqual(self.prepare(copy, self.out, preexec_fn=as_nobody), CANNOT_WRITE)
        self.assertEqual((self.out.read_bytes(), self.names()), (OLD, ["out"]))

    @for_each_program
    def test_the_metafile_is_not_replaced(self, program):
        file = self.folder / "file"
        file.write_bytes(DOT)
        (self.folder / "link").unlink(missing_ok=True)
        (self.folder / "link").symlink_to(file)
        (self.folder / "second").unlink(missing_ok=True)
        os.link(file, self.folder / "second")
        fine = ["--profile", "print"]
        allowing = ([*fine, *(word for name in names for word in ("--allow", name))] for names in (["held-deletion"], ["emf-plus"], ["held-deletion", "emf-plus"]))
        for options in ([], ["--profile", "core"], fine, *allowing):
            for name in ["file", "./file", str(file), "link", "second"]:
                for words in [("file", name), (name, "file")]:
                    told = answer(program, ["prepare", words[0], "4", "4", words[1], *options], cwd=self.folder)
                    self.assertEqual((told, file.read_bytes()), (SAME_FILE, DOT), (words, options))
        self.assertEqual(self.names(), ["file", "link", "second"])

    @for_each_program
    def test_another_file_is_replaced(self, program):
        # Another file with the same bytes, with the same name elsewhere, with links that lead to it, or none yet.
        for options in ([], ["--profile", "core"], ["--profile", "print"]):
            wanted = self.certificate(program, options)
            for name in ["other", "copy", "link", "second", "more/file", "missing", "dangling"]:
                shutil.rmtree(self.folder / "more", ignore_errors=True)
                for path in self.folder.iterdir():
                    path.unlink()
                (self.folder / "more").mkdir()
                (self.folder / "file").write_bytes(DOT)
                (self.folder / "other").write_bytes(OLD)
                (self.folder / "copy").write_bytes(DOT)
                (self.folder / "more/file").write_bytes(DOT)
                (self.folder / "link").symlink_to("copy")
                (self.folder / "dangling").symlink_to("nothing")
                os.link(self.folder / "copy", self.folder / "second")
                told = answer(program, ["prepare", "file", "4", "4", name, *options], cwd=self.folder)
                self.assertEqual((told, (self.folder / name).read_bytes()), (DONE, wanted), (name, options))
                self.assertEqual((self.folder / "file").read_bytes(), DOT)

    def certificate(self, program, options):
        """The dot's certificate with these options."""
        self.assertEqual(answer(program, ["prepare", "stdin", "4", "4", self.out, *options], DOT), DONE)
        given = self.out.read_bytes()
        self.out.unlink()
        return given

    @for_each_program
    def test_nothing_is_read_before_that(self, program):
        # Reading from a FIFO that nobody writes to would wait forever.
        (self.folder / "fifo").unlink(missing_ok=True)
        os.mkfifo(self.folder / "fifo")
        told = answer(program, ["prepare", "fifo", "4", "4", "fifo"], cwd=self.folder)
        self.assertEqual(told, SAME_FILE)

    @for_each_program
    def test_standard_input_has_no_name(self, program):
        file = self.folder / "stdin"
        file.write_bytes(DOT)
        with open(file, "rb") as given:
            run = subprocess.run([program, "prepare", "stdin", "4", "4", "stdin"], stdin=given, cwd=self.folder, capture_output=True)
        self.assertEqual((run.returncode, file.read_bytes()), (0, DOT_CERT))


def mode_of(path):
    """Who may read, write and execute a file."""
    return stat.S_IMODE(path.stat().st_mode)


class StoppedRuns(unittest.TestCase):
    """Runs that are killed before one of their calls that change files (stop_calls.c), each call in turn."""

    @classmethod
    def setUpClass(cls):
        room = tempfile.TemporaryDirectory()
        cls.addClassCleanup(room.cleanup)
        cls.folder = pathlib.Path(room.name)
        cls.library = cls.folder / "stop_calls.so"
        source = pathlib.Path(__file__).with_name("stop_calls.c")
        subprocess.run(["cc", "-O2", "-Wall", "-Wextra", "-Werror", "-shared", "-fPIC", "-o", cls.library, source, "-ldl"], check=True)

    def stopped(self, program, out, before):
        """What becomes of an output that was this before, and the modes of other files that are left, of each run that is killed; last of the run that
        isn't."""
        folder = out.parent
        for number in range(1, 100):
            shutil.rmtree(folder, ignore_errors=True)
            folder.mkdir()
            if before is not None:
                out.write_bytes(before)
            settings = {**os.environ, "LD_PRELOAD": str(self.library), "STOP_CALL": str(number)}
            told = answer(program, ["prepare", SAMPLES / "wheel.wmf", "64", "64", out], env=settings)
            left = [mode_of(path) for path in folder.iterdir() if path != out]
            yield told.status, out.read_bytes() if out.exists() else None, left
            if told.status == 0:
                return

    @for_each_program
    def test_the_file_is_the_old_one_or_the_new_one(self, program):
        whole = self.folder / "whole"
        self.assertEqual(answer(program, ["prepare", SAMPLES / "wheel.wmf", "64", "64", whole]), DONE)
        new = whole.read_bytes()
        for before in [OLD, None]:
            runs = list(self.stopped(program, self.folder / "runs/out", before))
            killed = [run for run in runs if run[0] == -signal.SIGKILL]
            self.assertEqual(runs[-1], (0, new, []))
            self.assertEqual(len(killed), len(runs) - 1)
            # At least the calls that open FILE, open a new file, write it, have it written to the disk, and rename it.
            self.assertGreaterEqual(len(killed), 5)
            # Nothing is renamed before the last of these calls, and a killed run leaves at most its own file.
            self.assertEqual({out for _, out, _ in killed}, {before})
            self.assertLessEqual({len(left) for _, _, left in killed}, {0, 1})
            self.assertEqual(len(killed[-1][2]), 1)
            # Of an old file's place, the new one is closed to others until it has the old one's mode.
            modes = {mode for _, _, left in killed for mode in left}
            self.assertEqual(modes, {0o600, mode_of(whole)} if before else {mode_of(whole)})


if __name__ == "__main__":
    unittest.main()
