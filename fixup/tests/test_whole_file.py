"""Files that are written whole or not touched."""

import os
import stat
import tempfile
import threading
import unittest
from pathlib import Path
from unittest import mock

from metaplay_fixup.whole_file import WholeFile, identity

OLD, NEW = b"as it was", b"as it is now" * 1000


class WholeFiles(unittest.TestCase):
    """Each test has a folder, and an open file with what is to be written."""

    def setUp(self) -> None:
        temporary = tempfile.TemporaryDirectory()
        self.addCleanup(temporary.cleanup)
        self.folder = Path(temporary.name)
        self.path = self.folder / "file"
        self.source = os.memfd_create("new")
        self.addCleanup(os.close, self.source)
        os.write(self.source, NEW)

    def write(self, path: Path) -> None:
        """Writes the file."""
        with WholeFile(path) as whole:
            whole.write(self.source)
            whole.put_in_place()

    def names(self) -> list[str]:
        """The names in the folder."""
        return sorted(path.name for path in self.folder.iterdir())

    def test_new_file(self) -> None:
        """It gets the mode that the mask leaves."""
        old = os.umask(0o027)
        self.addCleanup(os.umask, old)
        self.write(self.path)
        self.assertEqual((self.path.read_bytes(), self.names()), (NEW, ["file"]))
        self.assertEqual(stat.S_IMODE(self.path.stat().st_mode), 0o640)
        self.assertEqual(os.umask(0o027), 0o027)

    def test_old_file(self) -> None:
        """The mode is kept, and a second name of the old file still leads to that."""
        self.path.write_bytes(OLD)
        os.link(self.path, self.folder / "second")
        for mode in (0o444, 0o751, 0o600):
            self.path.chmod(mode)
            self.write(self.path)
            self.assertEqual(stat.S_IMODE(self.path.stat().st_mode), mode)
        self.assertEqual((self.path.read_bytes(), (self.folder / "second").read_bytes()), (NEW, OLD))

    def test_old_program(self) -> None:
        """A file that ran with its owner's rights doesn't any more, since its contents are others."""
        self.path.write_bytes(OLD)
        self.path.chmod(0o6755)
        self.write(self.path)
        self.assertEqual(stat.S_IMODE(self.path.stat().st_mode), 0o755)

    def test_links(self) -> None:
        """A link stays one, and the file that it leads to is written, even if it isn't there yet."""
        (self.folder / "below").mkdir()
        os.symlink("below/target", self.path)
        for _ in range(2):
            self.write(self.path)
            self.assertTrue(self.path.is_symlink())
            self.assertEqual((self.folder / "below/target").read_bytes(), NEW)
            self.assertEqual([path.name for path in (self.folder / "below").iterdir()], ["target"])
            (self.folder / "below/target").write_bytes(OLD)

    def test_not_put_in_place(self) -> None:
        self.path.write_bytes(OLD)
        with WholeFile(self.path) as whole:
            whole.write(self.source)
            self.assertEqual(len(self.names()), 2)
        self.assertEqual((self.path.read_bytes(), self.names()), (OLD, ["file"]))

    def test_full_disk(self) -> None:
        """Whether that shows on writing, on syncing or on renaming, the old file stays, and no other is left."""
        self.path.write_bytes(OLD)
        for name in ("write", "fsync", "fchmod", "replace"):
            with self.subTest(name), mock.patch(f"metaplay_fixup.whole_file.os.{name}", side_effect=OSError):
                self.assertRaises(OSError, self.write, self.path)
            self.assertEqual((self.path.read_bytes(), self.names()), (OLD, ["file"]))

    def test_order(self) -> None:
        """The new file is synced before it is renamed."""
        calls = mock.Mock()
        calls.fsync.side_effect, calls.replace.side_effect = os.fsync, os.replace
        with mock.patch.multiple("metaplay_fixup.whole_file.os", fsync=calls.fsync, replace=calls.replace):
            self.write(self.path)
        self.assertEqual([call[0] for call in calls.mock_calls], ["fsync", "replace"])

    def test_parts_of_a_write(self) -> None:
        """A write may take a part of the bytes."""
        write = os.write
        with mock.patch("metaplay_fixup.whole_file.os.write", side_effect=lambda file, data: write(file, data[:1000])):
            self.write(self.path)
        self.assertEqual(self.path.read_bytes(), NEW)

    def test_device(self) -> None:
        """A device and a pipe are written as they are."""
        self.write(Path(os.devnull))
        self.assertTrue(stat.S_ISCHR(os.stat(os.devnull).st_mode))
        os.mkfifo(self.path)
        read: list[bytes] = []
        reader = threading.Thread(target=lambda: read.append(self.path.read_bytes()))
        reader.start()
        self.write(self.path)
        reader.join()
        self.assertEqual((read, self.names()), ([NEW], ["file"]))

    def test_folder(self) -> None:
        self.assertRaises(OSError, self.write, self.folder)
        self.assertRaises(OSError, self.write, self.folder / "none/file")
        self.assertEqual(self.names(), [])

    def test_long_name(self) -> None:
        """The longest name that a file can have."""
        path = self.folder / ("é" * 127)
        self.write(path)
        self.assertEqual(path.read_bytes(), NEW)

    def test_identity(self) -> None:
        self.path.write_bytes(OLD)
        os.symlink("file", self.folder / "link")
        os.link(self.path, self.folder / "second")
        os.symlink("none", self.folder / "dangling")
        same = {identity(self.folder / name) for name in ("file", "./file", "link", "second")}
        self.assertEqual(len(same), 1)
        missing = {identity(self.folder / name) for name in ("none", "dangling")}
        self.assertEqual(len(missing), 1)
        self.assertNotEqual(same, missing)


if __name__ == "__main__":
    unittest.main()
