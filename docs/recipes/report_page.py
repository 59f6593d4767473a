"""The page of the report: HTML that needs nothing else, neither a script nor another file."""

from __future__ import annotations

import base64
import hashlib
import html
from collections import Counter
from collections.abc import Iterator
from dataclasses import dataclass
from enum import Enum
from pathlib import Path
from typing import Any

from report_texts import ERRORS, Texts

STYLE = Path(__file__).resolve().with_name("report.css")


class Verdict(Enum):
    """What is said of a file. The value is also its class in HTML."""

    ACCEPTED = "accepted"
    REJECTED = "rejected"
    ERROR = "unread"


HEADS = {Verdict.ACCEPTED: "Accepted", Verdict.REJECTED: "Rejected", Verdict.ERROR: "Not checked"}

ORDER = [Verdict.REJECTED, Verdict.ERROR, Verdict.ACCEPTED]
"""What somebody has to do something about comes first."""

VERDICTS = {True: Verdict.ACCEPTED, False: Verdict.REJECTED, None: Verdict.ERROR}


@dataclass(frozen=True)
class Picture:
    """The picture of a file as PNG, or why there is none."""

    width: int = 0
    height: int = 0
    png: bytes = b""
    problem: str = ""
    is_stopped: bool = False


@dataclass(frozen=True)
class Entry:
    """A file: its name, the line of `metaplay info`, and the picture if it plays."""

    name: str
    info: dict[str, Any]
    picture: Picture | None

    @property
    def verdict(self) -> Verdict:
        """What is said of the file."""
        return VERDICTS[self.info["plays"]]

    @property
    def reason(self) -> str:
        """The fault or the error, or nothing."""
        return str(self.info.get("fault") or self.info.get("error") or "")

    @property
    def record(self) -> str:
        """The name of the fault's record, or nothing."""
        return str(self.info.get("record_name") or "")


@dataclass(frozen=True)
class Page:
    """What the page is about, how it was made, and the folders that couldn't be read."""

    folder: str
    made: str
    entries: list[Entry]
    unread: list[str]


def shown(text: str) -> str:
    """A text on one line. What can't be printed, such as a line feed or a byte that isn't UTF-8, is escaped."""
    return "".join(it if it.isprintable() else escaped(it) for it in text)


def escaped(sign: str) -> str:
    """An escape for a sign that can't be printed. A surrogate stands for a byte of a name that isn't UTF-8."""
    if "\udc80" <= sign <= "\udcff":
        return f"\\x{ord(sign) - 0xDC00:02x}"
    return sign.encode("unicode_escape", "replace").decode()


def fault_of(name: str, record: str | None) -> str:
    """A fault with the name of its record, as HTML."""
    return html.escape(shown(name)) + (f" <code>{html.escape(record)}</code>" if record else "")


def facts(entry: Entry, texts: Texts) -> Iterator[tuple[str, str]]:
    """What is known of a file: names, and texts as HTML."""
    info = entry.info
    if entry.verdict is Verdict.REJECTED:
        yield "Record", fault_of(f"{info['record']:,}", entry.record) if info["record"] is not None else "none"
    if info.get("size"):
        yield "Size on paper", " × ".join(f"{side / 100:,.1f}" for side in info["size"]) + " mm"
    elif entry.verdict is not Verdict.ERROR:
        yield "Size on paper", "not known"
    program, _, title = (info.get("description") or "").partition("\0")
    for head, text in (("Program", program), ("Title", title.strip("\0"))):
        if text.strip():
            yield head, html.escape(shown(text))
    if len(info.get("faults") or []) > 1:
        faults = ((fault_of(it["fault"], it["record_name"]), it["count"], "") for it in info["faults"])
        yield "All faults", listed(faults)
    if info.get("drawings") == 0:
        yield "Drawings", "none: the picture is empty"
    if info.get("notes"):
        yield "Notes", listed((html.escape(it), count, texts.notes.get(it, "")) for it, count in info["notes"].items())


def listed(items: Iterator[tuple[str, int, str]]) -> str:
    """A list of names with counts and explanations, all in HTML."""
    made = (f"<li>{name} ({count:,}){': ' if text else ''}{text}</li>" for name, count, text in items)
    return f"<ul>{''.join(made)}</ul>"


def advice(entry: Entry, texts: Texts) -> Iterator[str]:
    """What to tell the sender of a file that isn't accepted, in HTML."""
    if entry.reason in texts.faults:
        told = texts.faults[entry.reason]
        yield f"<p>{told.meaning}</p>"
        yield f"<p><b>What to do:</b> {told.remedy}</p>"
        if told.mended != "no":
            yield f"<p><b>What metaplay-fixup mends:</b> {told.mended}.</p>"
    elif entry.reason in ERRORS:
        yield f"<p><b>What to do:</b> {html.escape(ERRORS[entry.reason])}</p>"


def figure(picture: Picture, name: str) -> str:
    """A picture, or why there is none."""
    if picture.problem:
        return f'<p class="problem">{html.escape(picture.problem)}</p>'
    data = base64.b64encode(picture.png).decode()
    sides = f'width="{picture.width}" height="{picture.height}"'
    return f'<p class="picture"><img src="data:image/png;base64,{data}" {sides} alt="{html.escape(name)}"></p>'


def term(head: str, text: str) -> str:
    """What is known of a file by its name. A list stands below the name, not beside it."""
    kind = ' class="long"' if text.startswith("<ul>") else ""
    return f"<div{kind}><dt>{head}</dt><dd>{text}</dd></div>"


def card(entry: Entry, texts: Texts) -> str:
    """What the page says of a file."""
    reason = f': <b class="reason">{html.escape(shown(entry.reason))}</b>' if entry.reason else ""
    terms = "".join(term(*it) for it in facts(entry, texts))
    return "\n".join(
        [
            f'<article class="{entry.verdict.value}">',
            figure(entry.picture, entry.name) if entry.picture else "",
            f"<h2>{html.escape(entry.name)}</h2>",
            f'<p class="verdict"><span>{HEADS[entry.verdict]}</span>{reason}</p>',
            *advice(entry, texts),
            f"<dl>{terms}</dl>" if terms else "",
            "</article>\n",
        ]
    )


def filters(page: Page) -> Iterator[str]:
    """The choice of files to see, with counts. It works by the style alone."""
    counts = Counter(entry.verdict for entry in page.entries)
    choices = [("all", "All", len(page.entries)), *((it.value, HEADS[it], counts[it]) for it in ORDER)]
    for name, _, _ in choices:
        checked = " checked" if name == "all" else ""
        yield f'<input type="radio" name="show" id="show-{name}"{checked}>\n'
    labels = (f'<label for="show-{name}">{head} <b>{count:,}</b></label>' for name, head, count in choices)
    yield f"<nav>{''.join(labels)}</nav>\n"


def remarks(page: Page) -> Iterator[str]:
    """What the page says before its files."""
    stopped = sum(1 for entry in page.entries if entry.picture and entry.picture.is_stopped)
    if stopped:
        yield f"<p>Pictures that were stopped, because they took too long: <b>{stopped:,}</b></p>\n"
    for name in page.unread:
        yield f'<p class="problem">This folder can\'t be read: {html.escape(name)}</p>\n'
    reasons = Counter(fault_of(entry.reason, entry.record) for entry in page.entries if entry.reason)
    if reasons:
        rows = (f"<li>{name} <b>{count:,}</b></li>" for name, count in reasons.most_common())
        yield f'<ul class="reasons">{"".join(rows)}</ul>\n'
    if any(entry.reason in ("Unsupported", "PaletteColour", "CompressedDib") for entry in page.entries):
        yield "<p>“Fix the file” means to run metaplay-fixup on it.</p>\n"


def head(page: Page) -> str:
    """The beginning of the page. Its rule for a browser forbids all but its own style and its own pictures."""
    style = STYLE.read_text(encoding="utf-8")
    digest = base64.b64encode(hashlib.sha256(style.encode()).digest()).decode()
    rule = f"default-src 'none'; img-src data:; style-src 'sha256-{digest}'; base-uri 'none'; form-action 'none'"
    title = f"Metafiles in {page.folder}"
    return f"""<!DOCTYPE html>
<html lang="en">
<head>
<meta charset="utf-8">
<meta http-equiv="Content-Security-Policy" content="{rule}">
<meta name="viewport" content="width=device-width, initial-scale=1">
<meta name="color-scheme" content="light dark">
<title>{html.escape(title)}</title>
<style>{style}</style>
</head>
<body>
<header>
<h1>{html.escape(title)}</h1>
<p>{html.escape(page.made)}</p>
</header>
"""


def written(page: Page, texts: Texts) -> Iterator[str]:
    """The text of the page."""
    yield head(page)
    yield f'<section class="remarks">\n{"".join(remarks(page))}</section>\n'
    yield from filters(page)
    yield "<main>\n"
    for entry in sorted(page.entries, key=lambda it: ORDER.index(it.verdict)):
        yield card(entry, texts)
    yield "</main>\n</body>\n</html>\n"
