"""What runs the steps of the gate, without the prover: parts of edits begin once all crates below them are proved, those of high crates first;
what is said of times; and which files of tests are well."""

import contextlib
import io
import pathlib
import tempfile
import unittest
from typing import NamedTuple
from unittest import mock

import edits
import gate
from gate import Beside, Clock, Processors, Tests, proved_in
from run import judged


class Crate(NamedTuple):
    """A crate by its name, with those below it."""

    name: str
    lower: tuple = ()

    def below(self):
        """The crates below it."""
        return self.lower


class Part(NamedTuple):
    """A part of a crate's edits."""

    name: str
    crate: Crate
    edits: tuple = ("body",)


class Pool:
    """What tries only what it is told to, one part each time."""

    def __init__(self):
        """Begins with nothing to try."""
        self.given = []

    def submit(self, trying):
        """Keeps what it has to try."""
        self.given.append(trying)
        return trying


LOW = Crate("low")
MIDDLE = Crate("middle", (LOW,))
HIGH = Crate("high", (LOW, MIDDLE))


class BesideTest(unittest.TestCase):
    """Parts that wait for crates."""

    def begun(self, *lines):
        """The parts that are tried after these lines of `rt ci`, in order, and those that wait still."""
        pool, said = Pool(), io.StringIO()
        with contextlib.redirect_stdout(said):
            beside = Beside([Part("low 1", LOW), Part("middle 1", MIDDLE), Part("high 1", HIGH), Part("high 2", HIGH)], pool, lambda part: part.name)
            for name in proved_in(line + "\n" for line in lines):
                beside.prove(name)
        self.assertEqual(said.getvalue(), "".join(line + "\n" for line in lines))
        return [trying() for trying in pool.given], [part.name for part in beside.waiting]

    def test_what_stands_on_nothing_begins_at_once(self):
        self.assertEqual(self.begun(), (["low 1"], ["middle 1", "high 1", "high 2"]))

    def test_a_part_begins_once_all_below_it_is_proved(self):
        self.assertEqual(self.begun("rt: low proved"), (["middle 1", "low 1"], ["high 1", "high 2"]))
        self.assertEqual(self.begun("rt: middle proved"), (["low 1"], ["middle 1", "high 1", "high 2"]))

    def test_parts_of_the_crate_with_most_below_it_go_first(self):
        in_order = ["high 1", "high 2", "middle 1", "low 1"]
        self.assertEqual(self.begun("== low", "rt: low proved", "rt: middle proved"), (in_order, []))

    def test_another_pool_tries_what_is_ready(self):
        pool, more = Pool(), Pool()
        beside = Beside([Part("low 1", LOW), Part("low 2", LOW), Part("high 1", HIGH)], pool, lambda part: [part.name])
        self.assertEqual(pool.given[0](), ["low 1"])
        beside.share(more)
        self.assertEqual([trying() for trying in [*more.given, *pool.given[1:]]], [["low 2"], []])
        self.assertEqual(len(beside.begun), 3)

    def test_no_other_line_says_that_a_crate_is_proved(self):
        for line in ("rt: low NOT PROVED", "rt: low: its tests are proved", "fn low: proved", "rt: low proved?", "note: rt: low proved"):
            with self.subTest(line=line):
                self.assertEqual(self.begun(line)[0], ["low 1"])


class WholeTest(unittest.TestCase):
    """The steps beside each other, without the toolchain."""

    def ended(self, proved, failing=(), tests=(0, 0), record="true"):
        """The status of a gate whose first step proves these crates, whose tests have these statuses, and of whose parts these fail; and what it said."""
        parts, said = [Part("low 1", LOW), Part("middle 1", MIDDLE), Part("high 1", HIGH)], io.StringIO()
        trying = lambda part: [f"{part.name} went wrong"] * (part.name in failing)
        with contextlib.redirect_stdout(said), contextlib.ExitStack() as stack:
            stack.enter_context(mock.patch.object(Beside.__init__, "__defaults__", (trying,)))
            stack.enter_context(mock.patch.object(gate.run, "run_all", lambda names: tests[names == gate.run.LAST]))
            stack.enter_context(mock.patch.object(gate, "PROGRAMS", {"low"}))
            stack.enter_context(mock.patch.object(edits, "lanes", lambda taken=0: 1 if taken else 2))
            stack.enter_context(mock.patch.object(gate, "RECORD", record))
            words = ["printf", "".join(f"rt: {name} proved\n" for name in proved)]
            return gate.beside(Clock(), words, parts), said.getvalue()

    def test_it_passes_where_all_parts_are_tried_and_none_fails(self):
        status, said = self.ended(["low", "middle", "high"])
        self.assertEqual((status, "3 edits tried, 0 things wrong" in said), (0, True))

    def test_it_fails_where_a_part_fails_or_is_not_tried(self):
        status, said = self.ended(["low", "middle", "high"], failing=["middle 1"])
        self.assertEqual((status, "middle 1 went wrong" in said), (1, True))
        status, said = self.ended(["low"])
        self.assertEqual((status, "high 1 was not tried" in said), (1, True))

    def test_it_fails_where_the_build_is_not_recorded(self):
        with tempfile.TemporaryDirectory() as folder:
            record = pathlib.Path(folder, "record")
            record.write_text("#!/bin/sh\nexit $#\n")
            record.chmod(0o755)
            self.assertEqual(self.ended(["low", "middle", "high"], record=record)[0], 1)

    def test_it_fails_where_the_tests_do(self):
        for tests in ((1, 0), (0, 1), (1, 1)):
            with self.subTest(tests=tests):
                self.assertEqual(self.ended(["low", "middle", "high"], tests=tests)[0], 1)

    def test_most_tests_begin_once_when_all_programs_are_built(self):
        pool = Pool()
        with mock.patch.object(gate, "PROGRAMS", {"low", "high"}):
            tests = Tests("sources", pool)
            begun = [(tests.prove(name), len(pool.given))[1] for name in ("middle", "low", "high", "other", "low")]
        self.assertEqual(begun, [0, 0, 1, 1, 1])

    def test_it_fails_where_the_programs_are_not_built(self):
        status, said = self.ended(["middle", "high"])
        self.assertEqual((status, "tests FAILED" in said), (1, True))


class SaidTest(unittest.TestCase):
    """What is said of times and tests."""

    def test_the_host_s_share_is_of_what_was_asked_for(self):
        self.assertEqual(Processors(150, 30).since(Processors(30, 0)), "2 min of processor, and the host kept 20 % of what was asked for")
        self.assertEqual(Processors(1, 1).since(Processors(1, 1)), "0 min of processor, and the host kept 0 % of what was asked for")

    def test_a_file_is_well_that_ran_tests_and_passed(self):
        self.assertEqual(judged("a_test", 0, "..\nRan 2 tests in 0.1s\n\nOK\n", 1)[:3], ("a_test", 2, True))
        self.assertEqual(judged("a_test", 0, ".\nRan 1 test in 0.1s\n\nOK\n", 1)[:3], ("a_test", 1, True))
        self.assertEqual(judged("a_test", 1, ".F\nRan 2 tests in 0.1s\n\nFAILED\n", 1)[:3], ("a_test", 2, False))
        self.assertEqual(judged("a_test", 0, "Ran 0 tests in 0.0s\n\nOK\n", 1)[:3], ("a_test", 0, False))
        self.assertFalse(judged("a_test", 1, "ImportError: no module", 1).is_well)


if __name__ == "__main__":
    unittest.main()
