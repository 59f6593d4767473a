"""The second reader of fixed files, which shares no code with `metaplay_fixup`.

`verify` says that all records of a fixed file outside of its marks are the original's. Of a file made with
`--text-only` it says too that each marked place only draws text. Otherwise it lists what was replaced.
"""

from .files import Unreadable
from .verdict import Replaced, Verdict, verify

__all__ = ["Replaced", "Unreadable", "Verdict", "verify"]
