"""Files of one sort of record each, shown and listed: work that is done twice for a rare record is a large part of such a file."""

from collections.abc import Callable, Iterator

from instruction_files import Counted
from writers import EMF, WMF, Form

# How many times each script stands in its file.
TIMES = 1_200

# Each script, and what is before it, by what they are called in a file's name.
SCRIPTS: dict[str, tuple[Form, str, str]] = {
    "background modes": (WMF, "", "back_mode 1; back_mode 2"),
    "raster operations": (WMF, "", "raster 13; raster 7"),
    "map modes": (WMF, "", "map_mode 8"),
    "background colours": (EMF, "", "back_colour 0x8040"),
    "window origins of WMF": (WMF, "", "window_origin 1 1; window_origin 0 0"),
    "viewport origins of WMF": (WMF, "", "viewport_origin 1 1; viewport_origin 0 0"),
    "viewport origins of EMF": (EMF, "", "viewport_origin 1 1; viewport_origin 0 0"),
    "window offsets": (WMF, "", "offset_window 1 1; offset_window -1 -1"),
    "viewport offsets": (WMF, "", "offset_viewport 1 1; offset_viewport -1 -1"),
    "extents": (EMF, "map_mode 8", "window_extent 64 64; viewport_extent 64 64"),
    "palettes selected": (EMF, "palette 0", "select_palette 0"),
    "pens selected": (WMF, "pen 0", "select 0"),
    "long pens": (EMF, "", "styled_long_pen 0 0 3 0 0x8040; delete 0"),
    "pens of WMF": (WMF, "", "styled_pen 0 0 3 0x8040; delete 0"),
    "ends of a clip": (EMF, "", "unclip"),
    "cuts": (EMF, "", "save; 16x cut 1 1 2 2; restore -1"),
    "kept boxes": (WMF, "", "keep 0 0 60 60"),
    "moves": (WMF, "", "move 1 1"),
    "saved states": (EMF, "", "save; restore -1"),
    "paths of no figure": (EMF, "", "begin_path; end_path; abort_path"),
    "patterns": (WMF, "", "pat_blt 0x00F00021 1 1 1 1"),
    "bare blits of WMF": (WMF, "", "bare_bit_blt 0x00F00021 1 1 1 1 0 0; bare_stretch_blt 0x00F00021 1 1 1 1 0 0 1 1"),
    "bare blits of EMF": (EMF, "", "bare_bit_blt 0x00F00021 1 1 1 1 0 0; bare_stretch_blt 0x00F00021 1 1 1 1 0 0 1 1"),
}


def repeated(name: str, command: str) -> Callable[[], Counted]:
    """The maker of the file of a script, given to a command."""
    form, before, script = SCRIPTS[name]

    def made() -> Counted:
        """The file."""
        times = TIMES // (6 if "16x" in script else 1)
        return Counted(form.file(form.records(before) + form.records(script) * times, 64, 16), 64, 64, command=command)

    return made


def makers() -> Iterator[tuple[str, Callable[[], Counted]]]:
    """The name and the maker of each file."""
    for name in SCRIPTS:
        yield f"nothing but {name}", repeated(name, "show")
        yield f"nothing but {name}, listed", repeated(name, "list")


FILES = dict(makers())
