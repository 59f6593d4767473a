"""Writes what docs/FIXUP.md says of the fix-up, as JSON. Debian's Python runs it, which has the libraries of the fix-up: fixup_page_test.py asks it."""

import json
import sys
from pathlib import Path

sys.path.insert(0, str(Path(__file__).resolve().parent.parent / "fixup"))

from metaplay_fixup import catalogue, child, dashes, families, fonts  # noqa: E402
from metaplay_fixup.emf import EMF_STEPS  # noqa: E402
from metaplay_fixup.emf_kinds import EMF  # noqa: E402
from metaplay_fixup.faults import FaultName  # noqa: E402
from metaplay_fixup.wmf import WMF_STEPS  # noqa: E402
from metaplay_fixup.wmf_kinds import WMF  # noqa: E402

FORMATS = [(WMF, WMF_STEPS), (EMF, EMF_STEPS)]


def names(of_steps: str) -> list[str]:
    """The names of records of both formats that their steps have under a name."""
    kinds = [kinds.find(number) for kinds, steps in FORMATS for number in getattr(steps, of_steps)]
    return sorted(kind.name for kind in kinds if kind is not None)


def facts() -> dict[str, object]:
    """All of them."""
    limits = child.Limits()
    return {
        "faults": [name.value for name in FaultName],
        "handled": names("handlers"),
        "unsupported": names("unsupported"),
        "families": {face: families.equal_families(face) for face in [*families._EQUAL_WIDTHS, *families._SUBSTITUTES]},
        "substitutes": families._SUBSTITUTES,
        "dashes": [[dashes._PIXELS[style], dashes._WIDTHS[style]] for style in dashes._PIXELS],
        "limits": [limits.seconds, limits.memory, limits.file, catalogue.LONGEST_FONT, fonts.MOST_POINTS],
    }


if __name__ == "__main__":
    print(json.dumps(facts()))
