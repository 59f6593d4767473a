"""The texts of --help that stand above and below the list of options."""

from .statuses import PROGRAM

USAGE = f"""{PROGRAM} FILE OUT --fonts DIR... [OPTIONS]
       {PROGRAM} --out-dir DIR FILE... --fonts DIR... [OPTIONS]
       {PROGRAM} --verify ORIGINAL FILE [--text-only]"""
"""The forms of a command line."""

ABOUT = """Replaces what metaplay rejects in a Windows metafile by what it plays

Each record of the metafile (WMF, EMF) that metaplay rejects is replaced by
records that its print profile plays. The result is a file of the same format."""
"""What the program does: a line for the head of its manual page, and a paragraph."""

GUIDE = """Examples:
  metaplay-fixup drawing.emf fixed.emf --fonts /usr/share/fonts
  metaplay-fixup drawing.wmf fixed.wmf --fonts fonts more --map Optima=Carlito
  metaplay-fixup stdin fixed.emf --check 4096 4096 --report report.jsonl
  metaplay-fixup --out-dir fixed one.wmf two.emf --fonts fonts
  metaplay-fixup --verify drawing.emf fixed.emf

A word after -- is a name, even if it begins with a hyphen.

Exit status:
  0  done
  1  a file was rejected, or its result by --check or by --verify
  2  wrong usage, or help
  3  an input or an output failed, or metaplay can't be run
  4  out of memory

The fault is on standard error; --verify prints on standard output."""
"""Examples, and what the program ends with."""
