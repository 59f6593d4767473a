"""The writers of records and files, which stand in tests/metafile/, and where this repository and its program are."""

import pathlib
import sys

ROOT = pathlib.Path(__file__).resolve().parent.parent

PROGRAM = ROOT / "crates" / "meta_main" / "out" / "meta_main"

sys.path.append(str(ROOT / "tests"))

from metafile.bitmaps import Bitmap, header  # noqa: E402
from metafile.blits import MASKED, PATCOPY, PATINVERT, SRCCOPY  # noqa: E402
from metafile.fields import i16, i32, u16, u32  # noqa: E402
from metafile.files import emf_file, placeable_file  # noqa: E402
from metafile.scripts import EMF, WMF, Form  # noqa: E402
from metafile.shapes import BETWEEN  # noqa: E402

__all__ = ["BETWEEN", "EMF", "MASKED", "PATCOPY", "PATINVERT", "PROGRAM", "ROOT", "SRCCOPY", "WMF", "Bitmap", "Form", "header"]
__all__ += ["emf_file", "i16", "i32", "placeable_file", "u16", "u32"]
