"""Scripts in whose records runs of a file stop, on some surfaces or on each, and what listings say of them."""

# Records that double the page, on a frame of one unit. From there on a page unit is as wide as two
# of the largest surfaces, of which 16,384 have 2^28 pixels: a point 16,385 units off lands too far on
# the largest surface, and not on one of half its side.
DOUBLED = "map_mode 8; window_extent 1 1; viewport_extent 2 2"
NEAR, FAR = "pixel 16384 0", "pixel 16385 0"

# One that lands too far on the largest surface alone, and in front of another fault, by hand.
TOLD_BOTH = b"".join(
    [
        b"0\t40\t8\t0x0103\tMETA_SETMAPMODE\tplayed\tmap mode 8\n",
        b"1\t48\t10\t0x020c\tMETA_SETWINDOWEXT\tplayed\twindow extent 1,1\n",
        b"2\t58\t10\t0x020e\tMETA_SETVIEWPORTEXT\tplayed\tviewport extent 2,2\n",
        b"3\t68\t14\t0x041f\tMETA_SETPIXEL\trefused\tOffPlane\n",
        b"4\t82\t8\t0x0127\tMETA_RESTOREDC\trefused\tNoSavedState\n",
        b"5\t90\t6\t0x0000\tMETA_EOF\tplayed\tnothing\n",
    ]
)

# Four pixels behind that: the second is off the plane on the largest surface alone, since 2 * 16,385 * 8,192 is past 2^28 and
# 2 * 16,385 * 8,191 isn't, and the fourth from 4,474 pixels on, since 2 * 30,000 * 4,474 is past 2^28 and 2 * 30,000 * 4,473 isn't.
APART = f"{DOUBLED}; {NEAR}; {FAR}; {NEAR}; pixel 30000 0"

TOLD_APART = b"".join(
    [
        b"0\t40\t8\t0x0103\tMETA_SETMAPMODE\tplayed\tmap mode 8\n",
        b"1\t48\t10\t0x020c\tMETA_SETWINDOWEXT\tplayed\twindow extent 1,1\n",
        b"2\t58\t10\t0x020e\tMETA_SETVIEWPORTEXT\tplayed\tviewport extent 2,2\n",
        b"3\t68\t14\t0x041f\tMETA_SETPIXEL\tplayed\tpixel 16384,0 #ff0000\n",
        b"4\t82\t14\t0x041f\tMETA_SETPIXEL\trefused\tOffPlane\n",
        b"5\t96\t14\t0x041f\tMETA_SETPIXEL\tplayed\tpixel 16384,0 #ff0000\n",
        b"6\t110\t14\t0x041f\tMETA_SETPIXEL\trefused\tOffPlane\n",
        b"7\t124\t6\t0x0000\tMETA_EOF\tplayed\tnothing\n",
    ]
)

# Which of the records is the first that is off the plane, by the side of the bound.
APART_AT = [(8192, 4), (8191, 6), (4474, 6), (4473, None), (1, None)]

# Scripts behind that: which of their records are off the plane on the largest surface alone, counted from 0, and which the smallest
# refuses, and by which fault.
STOPS = [
    ("", [], None),
    (f"{NEAR}; pixel -16384 0", [], None),
    # On the largest surface alone: each is told, also behind another.
    (FAR, [0], None),
    ("line 0 -16385", [0], None),
    (f"{NEAR}; {FAR}; {NEAR}", [1], None),
    (f"{FAR}; viewport_extent 4 4; {FAR}; pixel 30000 0", [0, 2, 3], None),
    (f"rectangle 0 0 16385 1; polygon 0 0 0 16385 1 1; polyline 0 0 1 1; polyline 0 0 16385 1", [0, 1, 3], None),
    ("cut 0 0 16385 1; keep 0 0 0 1; keep 0 0 0 16385", [0, 2], None),
    # A position alone is on no surface, but lines begin there.
    ("move 16385 0; pixel 0 0; line 0 0; line 1 1", [2], None),
    # Behind one that all refuse nothing is.
    (f"{FAR}; restore -1", [0], (1, "NoSavedState")),
    (f"{FAR}; {NEAR}; select 3", [0], (2, "NoSuchHandle")),
    (f"restore -1; {FAR}", [], (0, "NoSavedState")),
    (f"{FAR}; restore -1; {FAR}", [0], (1, "NoSavedState")),
    # In one record all have the fault that doesn't depend on the surface, or else the same one.
    ("16x cut 0 0 1 1; cut 0 0 16385 1", [], (16, "TooManyCuts")),
    ("viewport_extent 16384 16384; pixel 16385 0", [], (1, "OffPlane")),
    (f"{FAR}; viewport_extent 16384 16384; pixel 16385 0", [0], (2, "OffPlane")),
    # A state that a refused record would have changed.
    (f"{FAR}; save; restore -1; restore -1", [0], (3, "NoSavedState")),
]

# The same in EMF alone: what a path gathers is looked at where it is added, and not again where it is painted, since no run comes to that on a surface
# where it is off the plane.
PATH_STOPS = [
    (f"begin_path; move 0 0; line 16385 0; line 0 1; end_path; stroke_path; {NEAR}", [2], None),
    ("begin_path; move 16385 0; line 0 0; line 0 1; end_path; fill_path", [2], None),
    ("begin_path; polygon 0 0 1 0 0 16385; abort_path; begin_path; rectangle 0 0 1 1; end_path; stroke_and_fill_path", [1], None),
    ("begin_path; end_path; fill_path; fill_path", [], (3, "PathState")),
]

# The same with pens. On the smallest surface of that page a pen's nib has twice as many columns and rows as its width, and on the largest 8,192 times
# as many of these: each record that is told, with its fault, and the fault and the record of the runs on the largest surface and on the smallest.
NARROW, WIDEST, TOO_WIDE = (f"styled_pen 0 0 {width} 0; select 0" for width in (1, 2048, 2049))
NIB_STOPS = [
    (f"{NARROW}; pixel 1 1; move 1 1", [], []),
    ("styled_pen 0 0 0 0; select 0; line 1 1; polyline", [], []),
    ("styled_pen 0 5 5000 0; select 0; line 1 1; polyline", [], []),
    (f"{NARROW}; line 1 1; pixel 1 1; polyline", [(2, "NibTooWide"), (4, "NibTooWide")], [(2, "NibTooWide")]),
    (f"{NARROW}; line 16385 0", [(2, "OffPlane")], [(2, "OffPlane")]),
    (f"{NARROW}; polygon 0 0 1 1; restore -1", [(2, "NibTooWide"), (3, "NoSavedState")], [(2, "NibTooWide"), (3, "NoSavedState")]),
    (f"{WIDEST}; rectangle 0 0 1 1; restore -1", [(2, "NibTooWide"), (3, "NoSavedState")], [(2, "NibTooWide"), (3, "NoSavedState")]),
    # Behind one that is too wide on each surface nothing is told.
    (f"{TOO_WIDE}; rectangle 0 0 1 1; restore -1", [(2, "NibTooWide")], [(2, "NibTooWide"), (2, "NibTooWide")]),
    # The largest surface's fault is told.
    (f"{TOO_WIDE}; line 16385 0; restore -1", [(2, "OffPlane")], [(2, "OffPlane"), (2, "NibTooWide")]),
]

# The same in EMF alone: a path has the nib of its painting.
NIB_PATH_STOPS = [
    (f"{NARROW}; begin_path; line 1 1; end_path; stroke_path", [(5, "NibTooWide")], [(5, "NibTooWide")]),
    (f"{NARROW}; begin_path; line 1 1; end_path; fill_path", [], []),
    (f"{TOO_WIDE}; begin_path; line 1 1; end_path; stroke_path; line 1 1", [(5, "NibTooWide")], [(5, "NibTooWide")] * 2),
    (f"{TOO_WIDE}; begin_path; line 16385 0; end_path; stroke_path", [(3, "OffPlane"), (5, "NibTooWide")], [(3, "OffPlane"), (5, "NibTooWide")]),
]
