"""What is printed of a verdict."""

from __future__ import annotations

from .verdict import Verdict


def lines_of(verdict: Verdict, text_only: bool) -> list[str]:
    """The lines, without their ends: the last one says whether it holds, those before it what was replaced."""
    if not verdict.holds:
        place = "" if verdict.record is None else f"record {verdict.record} of the file: "
        return [f"doesn't hold: {place}{verdict.reason}"]
    lines = [f"record {replaced.record} was replaced: {replaced.kind}" for replaced in verdict.replaced]
    only = ", which only draw text" if text_only and verdict.places else ""
    return [*lines, f"holds: {len(verdict.replaced)} records were replaced in {verdict.places} places{only}"]
