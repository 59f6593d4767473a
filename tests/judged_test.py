"""Which mutants are tried, without the prover: what a checksum reads, which entries of the record are believed, the share that is tried of a
crate on record, and what is written to the record."""

import contextlib
import io
import json
import pathlib
import subprocess
import tempfile
import unittest
from typing import NamedTuple
from unittest import mock

import edits
import judged
from edit_rounds import Edit

COMMIT = "09d4e03"

ENTRY = judged.Entry("abc", 3)

NAMES = [f"high/body_{number}" for number in range(400)]

# The files of a small repository: two crates, of which the first stands on the second, and one that neither stands on.
FILES = [
    "crates.txt",
    *(f"tests/{script}" for script in judged.SCRIPTS),
    "crates/high/src/lib.rt",
    "crates/high/src/inner/more.rt",
    "crates/high/specs/Lib.antt",
    "crates/high/proofs/Lib.antt",
    "edits/high/body.edit",
    "crates/low/src/lib.rt",
    "crates/low/specs/Lib.antt",
    "crates/low/proofs/Lib.antt",
]

# Files that no judgement of the first crate reads.
OTHERS = ["crates/other/src/lib.rt", "edits/low/body.edit", "edits/judged.json", "crates/high/out/kept", "crates/high/must-fail/a.edit", "tests/gate.py"]


@contextlib.contextmanager
def repository():
    """The small repository, each of whose files has its own name as its text."""
    with tempfile.TemporaryDirectory() as folder:
        root = pathlib.Path(folder)
        for path in [*FILES, *OTHERS]:
            (root / path).parent.mkdir(parents=True, exist_ok=True)
            (root / path).write_text(path, encoding="utf-8")
        yield root


class Checksums(unittest.TestCase):
    """What a checksum reads."""

    def checksum(self, root, below=("low",), version="13"):
        """The checksum of the first crate."""
        return judged.checksum(root, "high", list(below), version)

    def test_each_file_that_is_read_changes_it(self):
        with repository() as root:
            before = self.checksum(root)
            self.assertEqual(self.checksum(root), before)
            for path in FILES:
                with self.subTest(path=path):
                    (root / path).write_text("changed", encoding="utf-8")
                    self.assertNotEqual(self.checksum(root), before)
                    (root / path).write_text(path, encoding="utf-8")
                    self.assertEqual(self.checksum(root), before)

    def test_no_other_file_does(self):
        with repository() as root:
            before = self.checksum(root)
            for path in OTHERS:
                (root / path).write_text("changed", encoding="utf-8")
            self.assertEqual(self.checksum(root), before)

    def test_a_new_file_a_lost_one_and_another_name_change_it(self):
        for part in ("crates/high/src", "crates/high/specs", "crates/low/proofs", "edits/high"):
            with self.subTest(part=part), repository() as root:
                before = self.checksum(root)
                (root / part / "new").write_text("", encoding="utf-8")
                with_new = self.checksum(root)
                (root / part / "new").rename(root / part / "renamed")
                with_renamed = self.checksum(root)
                (root / part / "renamed").unlink()
                self.assertEqual(len({before, with_new, with_renamed}), 3)
                self.assertEqual(self.checksum(root), before)

    def test_a_text_that_moves_to_the_next_file_changes_it(self):
        with repository() as root:
            paths = [root / "crates/high/src/lib.rt", root / "crates/high/src/inner/more.rt"]
            for path, text in zip(paths, ("ab", "c")):
                path.write_text(text, encoding="utf-8")
            before = self.checksum(root)
            for path, text in zip(paths, ("a", "bc")):
                path.write_text(text, encoding="utf-8")
            self.assertNotEqual(self.checksum(root), before)

    def test_the_toolchain_and_the_crates_below_change_it(self):
        with repository() as root:
            before = self.checksum(root)
            self.assertNotEqual(self.checksum(root, version="14"), before)
            self.assertNotEqual(self.checksum(root, below=()), before)
            self.assertNotEqual(self.checksum(root, below=("low", "other")), before)
            self.assertEqual(self.checksum(root, below=("other", "low")), self.checksum(root, below=("low", "other")))


class Choices(unittest.TestCase):
    """Which mutants of a crate are tried."""

    def choice(self, names=NAMES, entry=ENTRY, believed=ENTRY, commit=COMMIT):
        """Which of these are tried of a crate whose entry would be `ENTRY` now."""
        return judged.choice(names, ENTRY, entry, believed, commit).names

    def test_a_crate_without_an_entry_is_tried_whole(self):
        self.assertEqual(self.choice(entry=None, believed=None), NAMES)

    def test_a_crate_whose_checksum_or_number_differs_is_tried_whole(self):
        for other in (ENTRY._replace(checksum="abd"), ENTRY._replace(edits=4)):
            self.assertEqual(self.choice(entry=other, believed=other), NAMES)

    def test_an_entry_that_is_not_believed_counts_for_nothing(self):
        self.assertEqual(self.choice(believed=None), NAMES)
        self.assertEqual(self.choice(believed=ENTRY._replace(checksum="abd")), NAMES)
        self.assertEqual(self.choice(commit=None), NAMES)

    def test_of_the_others_an_eighth_is_tried(self):
        some = self.choice()
        self.assertEqual(some, [name for name in NAMES if judged.place(name, COMMIT) % 8 == 0])
        self.assertTrue(25 < len(some) < 75, len(some))

    def test_at_least_one_is_tried(self):
        for name in NAMES[:50]:
            self.assertEqual(self.choice([name]), [name])
        small = [NAMES[start : start + 3] for start in range(0, 60, 3)]
        self.assertTrue(all(self.choice(names) for names in small))

    def test_another_commit_tries_others_and_all_have_their_turn(self):
        self.assertNotEqual(self.choice(), self.choice(commit="7411675"))
        tried = {name for number in range(100) for name in self.choice(commit=str(number))}
        self.assertEqual(tried, set(NAMES))

    def test_it_is_said_which_are_tried(self):
        told = judged.choice(NAMES[:3], ENTRY, ENTRY, ENTRY, COMMIT)
        self.assertTrue(told.said.startswith(f"{len(told.names)} of 3,"))
        self.assertTrue(judged.choice(NAMES[:3], ENTRY, None, None, COMMIT).said.startswith("all 3,"))


class Beliefs(unittest.TestCase):
    """Which entries are believed."""

    def test_every_parent_must_have_it(self):
        record = {"high": ENTRY, "low": ENTRY}
        self.assertEqual(judged.believed(record, [{"high": ENTRY}]), {"high": ENTRY})
        self.assertEqual(judged.believed(record, [record, {"low": ENTRY}]), {"low": ENTRY})
        self.assertEqual(judged.believed(record, [{"high": ENTRY._replace(edits=4)}]), {})

    def test_nothing_is_believed_without_a_parent(self):
        self.assertEqual(judged.believed({"high": ENTRY}, []), {})

    def git(self, root, *words):
        """Has git do something in a folder."""
        who = ["-c", "user.name=a", "-c", "user.email=a@localhost", "-c", "commit.gpgsign=false"]
        subprocess.run(["git", "-C", root, *who, *words], check=True, capture_output=True)

    def commit(self, root, text):
        """Commits a record with this text."""
        path = root / judged.RECORD
        path.parent.mkdir(exist_ok=True)
        path.write_text(text, encoding="utf-8")
        self.git(root, "add", "-A")
        self.git(root, "commit", "-q", "--allow-empty", "-m", "a")

    def test_parents_are_asked_of_git(self):
        with tempfile.TemporaryDirectory() as folder:
            root = pathlib.Path(folder)
            self.assertEqual((judged.commit_of(root), judged.records_of_parents(root)), (None, []))
            self.git(root, "init", "-q", "-b", "main")
            self.commit(root, "no record")
            self.assertEqual(judged.records_of_parents(root), [])
            self.commit(root, judged.written({"high": ENTRY}))
            self.assertEqual(judged.records_of_parents(root), [{}])
            self.commit(root, "{}")
            self.assertEqual(judged.records_of_parents(root), [{"high": ENTRY}])
            self.git(root, "checkout", "-q", "-b", "side", "HEAD~1")
            self.commit(root, judged.written({"high": ENTRY, "low": ENTRY}))
            self.git(root, "merge", "-q", "-s", "ours", "main")
            self.assertEqual(judged.records_of_parents(root), [{"high": ENTRY, "low": ENTRY}, {}])
            self.assertEqual(len(judged.commit_of(root)), 40)

    def test_nothing_is_believed_without_git(self):
        with mock.patch.object(subprocess, "run", side_effect=OSError):
            self.assertEqual((judged.commit_of("."), judged.records_of_parents(".")), (None, []))


class Records(unittest.TestCase):
    """The text of a record, and what is wrong with one."""

    record = {"low": ENTRY, "high": judged.Entry("def", 1)}

    def test_it_has_a_line_for_each_crate_in_order(self):
        text = judged.written(self.record)
        self.assertEqual([line.split('"')[1] for line in text.split("\n")[1:-2]], ["high", "low"])
        self.assertEqual(json.loads(text)["low"], {"checksum": "abc", "edits": 3})
        self.assertEqual(judged.read(text), self.record)
        self.assertEqual(judged.read(judged.written({})), {})

    def test_one_that_cannot_be_read_is_wrong(self):
        for text in ("", "[]", "{", '{"low": {}}', '{"low": 1}'):
            with self.subTest(text=text):
                self.assertEqual(judged.read_or_wrong(text), ({}, ["edits/judged.json can't be read"]))

    def test_an_entry_of_a_crate_without_mutants_is_wrong(self):
        self.assertEqual(len(judged.mismatches(self.record, {"low": ENTRY})), 1)
        self.assertEqual(judged.mismatches(self.record, self.record), [])

    def test_another_number_beside_the_same_checksum_is_wrong(self):
        self.assertEqual(len(judged.mismatches({"low": ENTRY._replace(edits=4)}, {"low": ENTRY})), 1)
        self.assertEqual(judged.mismatches({"low": judged.Entry("old", 4)}, {"low": ENTRY}), [])

    def test_an_entry_is_put_in_or_taken_out(self):
        new = judged.Entry("new", 2)
        self.assertEqual(judged.changed(self.record, ["low", "high"], "low", new), {**self.record, "low": new})
        self.assertEqual(judged.changed(self.record, ["low", "high"], "low", None), {"high": self.record["high"]})
        self.assertEqual(judged.changed(self.record, ["low"], "low", new), {"low": new})


class Crate(NamedTuple):
    """A crate by its name, with none below it."""

    name: str

    def below(self):
        """The crates below it."""
        return []

    def count(self, pattern):
        """How many lines it has."""
        return 1


def bodies(name):
    """The one mutant of a crate."""
    return edits.Bodies(Crate(name), {}, [Edit("body", "", (f"{name}::f",))], [])


class Recording(unittest.TestCase):
    """What is put on record: `edits.py --record` without the prover."""

    def record(self, failed=(), before=None, changed=()):
        """The record after one that tries two crates, of which these fail and these change meanwhile, and the status."""
        entries, count = {}, {"low": 0, "high": 0}

        def entry(its):
            count[its.crate.name] += 1
            is_changed = count[its.crate.name] > 1 and its.crate.name in changed
            return judged.Entry("changed" if is_changed else its.crate.name, len(its.edits))

        with tempfile.TemporaryDirectory() as folder, contextlib.ExitStack() as stack:
            root = pathlib.Path(folder)
            for name in ("edits/low", "edits/high"):
                (root / name).mkdir(parents=True)
            if before is not None:
                (root / judged.RECORD).write_text(judged.written(before), encoding="utf-8")
            stack.enter_context(contextlib.redirect_stdout(io.StringIO()))
            stack.enter_context(mock.patch.multiple(edits, ROOT=root, EDITS=root / "edits", COUNT=2, can_try=lambda crates: True))
            stack.enter_context(mock.patch.object(edits, "bodies_of", lambda names: [bodies("low"), bodies("high")]))
            stack.enter_context(mock.patch.object(edits, "try_part", lambda part: [f"{part.crate.name} failed"] * (part.crate.name in failed)))
            stack.enter_context(mock.patch.multiple(edits.Bodies, entry=entry, of=classmethod(lambda cls, crate: bodies(crate.name))))
            status = edits.record([])
            path = root / judged.RECORD
            entries = judged.read(path.read_text(encoding="utf-8")) if path.exists() else {}
        return entries, status

    low, high = judged.Entry("low", 1), judged.Entry("high", 1)

    def test_crates_whose_edits_were_all_refused_are_on_record(self):
        self.assertEqual(self.record(), ({"low": self.low, "high": self.high}, 0))

    def test_a_crate_with_one_that_was_not_refused_is_not(self):
        self.assertEqual(self.record(failed=["low"]), ({"high": self.high}, 1))
        self.assertEqual(self.record(failed=["low"], before={"low": self.low}), ({"high": self.high}, 1))

    def test_a_crate_that_changed_meanwhile_is_not(self):
        self.assertEqual(self.record(changed=["high"])[0], {"low": self.low})

    def test_entries_of_crates_without_mutants_go(self):
        self.assertEqual(self.record(before={"gone": ENTRY})[0], {"low": self.low, "high": self.high})


class OfTheGate(unittest.TestCase):
    """What the gate tries, and what it says is wrong before it tries anything."""

    def parts(self, record, count=1):
        """The parts that are tried where one crate has one mutant, and what is wrong, with this record and this number of mutants."""
        with tempfile.TemporaryDirectory() as folder, contextlib.redirect_stdout(io.StringIO()):
            root = pathlib.Path(folder)
            (root / "edits/low").mkdir(parents=True)
            (root / judged.RECORD).write_text(record, encoding="utf-8")
            with mock.patch.multiple(edits, ROOT=root, EDITS=root / "edits", COUNT=count, bodies_of=lambda names: [bodies("low")]):
                with mock.patch.object(edits.Bodies, "entry", lambda its: judged.Entry("low", 1)):
                    parts, wrong = edits.parts_on_record()
        return [part.name for part in parts], wrong

    def test_a_record_that_matches_is_well(self):
        for record in ({}, {"low": judged.Entry("low", 1)}, {"low": judged.Entry("old", 2)}):
            self.assertEqual(self.parts(judged.written(record)), (["low 1 of 1"], []))

    def test_a_record_that_does_not_match_is_wrong(self):
        for record in ({"gone": ENTRY}, {"low": judged.Entry("low", 2)}):
            self.assertEqual(len(self.parts(judged.written(record))[1]), 1)
        self.assertEqual(self.parts("no record")[1], ["edits/judged.json can't be read"])

    def test_another_number_of_mutants_is_wrong(self):
        self.assertEqual(self.parts("{}", 2)[1], ["there are 1 edits of crates, and not 2"])


if __name__ == "__main__":
    unittest.main()
