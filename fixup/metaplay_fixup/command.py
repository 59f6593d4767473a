"""The command: what it does with its words, and the status that it ends with."""

from __future__ import annotations

import os
import sys
from collections.abc import Iterator, Mapping, Sequence
from contextlib import ExitStack, contextmanager
from dataclasses import dataclass
from pathlib import Path

from .catalogue import Catalogue
from .child import Limits, run_limited
from .command_line import (
    STANDARD_INPUT,
    CommandLine,
    Extra,
    Verification,
    Work,
    WrongUsage,
    help_text,
    read_command_line,
    usage_text,
)
from .late_catalogue import LateCatalogue
from .one_file import Results, convert_file, empty_file
from .proved_check import check_result
from .statuses import CANNOT_READ, CANNOT_WRITE, PROGRAM, Ending, Status, out_of_memory, say
from .version import VERSION
from .verification import verify_file
from .whole_file import WholeFile, append_file, identity


@dataclass(frozen=True, slots=True)
class Command:
    """The command. `limits` are those of the process of each file; `checker` is the proved program."""

    limits: Limits = Limits()
    checker: str = "metaplay"

    def run(self, words: Sequence[str]) -> Status:
        """Does what the words after the program's name ask for. What goes wrong is said on standard error."""
        try:
            asked = read_command_line(words)
            if isinstance(asked, Extra):
                return _print_extra(asked)
            if isinstance(asked, Verification):
                return self._verify(asked)
            _check_names(asked)
        except WrongUsage as wrong:
            say(wrong.text, usage_text() if wrong.shows_usage else "")
            return Status.WRONG_USAGE
        return self._run_all(asked)

    def _verify(self, asked: Verification) -> Status:
        """Asks the second reader."""
        try:
            verify_file(asked, self.limits)
        except Ending as ending:
            if ending.line:
                say(ending.line)
            return ending.status
        return Status.DONE

    def _run_all(self, asked: CommandLine) -> Status:
        """Converts each file, and writes the report if it is one of several. The status is that of the worst."""
        catalogue, status = LateCatalogue(asked.folders), Status.DONE
        with _empty("reports") as reports:
            try:
                _check_folders(asked)
                if len(asked.works) > 1:
                    self._read_once(catalogue)
                status = max(self._run_one(work, asked, catalogue, reports) for work in asked.works)
                if asked.is_folder and asked.report is not None:
                    _put_in_place({asked.report: reports})
            except Ending as ending:
                say(ending.line)
                return max(ending.status, status)
        return status

    def _read_once(self, catalogue: LateCatalogue) -> None:
        """Reads the names of fonts here and not in the process of each file.

        A process under limits does it first, since a font may be as hostile as a file. Raises Ending as that does.
        """
        run_limited(catalogue.read, self.limits)
        catalogue.read()

    def _run_one(self, work: Work, asked: CommandLine, catalogue: Catalogue, reports: int) -> Status:
        try:
            self._convert(work, asked, catalogue, reports)
        except Ending as ending:
            say(f"{work.source}: {ending.line}" if asked.is_folder else ending.line)
            return ending.status
        return Status.DONE

    def _convert(self, work: Work, asked: CommandLine, catalogue: Catalogue, reports: int) -> None:
        """Converts a file in a process of its own, checks the result, and writes it. Raises Ending.

        The report of one of several files goes to the end of `reports`.
        """
        with _empty("converted") as converted, _empty("report") as report:
            results = Results(converted, report)
            try:
                run_limited(lambda: convert_file(work.source, asked, catalogue, results), self.limits)
            except (OSError, MemoryError) as error:
                # The system has no process or no memory left.
                raise out_of_memory() from error
            if asked.check is not None:
                check_result(self.checker, results.converted, asked.check)
            if asked.is_folder or asked.report is None:
                _put_in_place({work.target: converted})
                append_file(reports, report)
            else:
                _put_in_place({work.target: converted, asked.report: report})


@contextmanager
def _empty(name: str) -> Iterator[int]:
    """An open file in memory, which is closed at the end."""
    file = empty_file(name)
    try:
        yield file
    finally:
        os.close(file)


def _put_in_place(wanted: Mapping[Path, int]) -> None:
    """Writes open files to their paths. None is touched if one of them can't be written.

    Raises Ending if a file can't be written.
    """
    try:
        with ExitStack() as stack:
            files = [(stack.enter_context(WholeFile(path)), file) for path, file in wanted.items()]
            for whole, file in files:
                whole.write(file)
            for whole, _ in files:
                whole.put_in_place()
    except OSError as error:
        raise Ending(Status.FAILED, CANNOT_WRITE) from error


def _check_names(asked: CommandLine) -> None:
    """Raises WrongUsage if a file that would be written is one that is read, or is written twice."""
    sources = {identity(Path(work.source)) for work in asked.works if work.source != STANDARD_INPUT}
    targets = [identity(work.target) for work in asked.works]
    if sources.intersection(targets):
        raise WrongUsage("OUT is FILE")
    if len(set(targets)) < len(targets):
        raise WrongUsage("two files would be written to one")
    if asked.report is not None and identity(asked.report) in sources.union(targets):
        raise WrongUsage("the report is FILE or OUT")


def _check_folders(asked: CommandLine) -> None:
    """Raises Ending if a folder isn't there: else fonts would only be missing, and each file be converted in vain."""
    for folder in asked.folders:
        if not folder.is_dir() or not os.access(folder, os.R_OK | os.X_OK):
            raise Ending(Status.FAILED, f"{CANNOT_READ} (the folder {folder})")
    target = asked.works[0].target.parent
    if asked.is_folder and not target.is_dir():
        raise Ending(Status.FAILED, f"{CANNOT_WRITE} (the folder {target})")
    report = asked.report
    if asked.is_folder and report is not None and (report.is_dir() or not report.parent.is_dir()):
        raise Ending(Status.FAILED, f"{CANNOT_WRITE} (the report)")


def _print_extra(extra: Extra) -> Status:
    """Prints help or the version. As with `metaplay`, help counts as wrong usage."""
    text = help_text() if extra is Extra.HELP else f"{PROGRAM} {VERSION}\n"
    try:
        sys.stdout.write(text)
        sys.stdout.flush()
    except (OSError, AttributeError):
        # There is no sys.stdout if standard output is closed.
        if extra is Extra.VERSION:
            say(CANNOT_WRITE)
            return Status.FAILED
    return Status.WRONG_USAGE if extra is Extra.HELP else Status.DONE
