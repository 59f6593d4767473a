"""Replaces records of Windows metafiles that `metaplay` rejects by records that its print profile plays.

`convert.convert` does it, and each module does one thing:

- what all know: `faults`, `options`, and `text`, which `layer` implements
- numbers: `fixed`, `affine`, `singles`, `angles`, `curves`, `rounds`, `shapes`
- strokes: `pens`, `dashes`, `caps`, `joins`, `stroke_shapes`
- records and files: `records` with its tables `emf_kinds` and `wmf_kinds`, `reader`, `emf_plus`
- the playing state: `objects`, `palettes`, `slots`, `worlds`, `viewports`, `extents`, `clips`, `paths`, `doubts`,
  `state`
- bitmaps: `pictures`, `channels`, `compressed`, `bitmaps`, `blends`, `sources`
- fonts: `faces` over FreeType, `fonts`, `composites`, `catalogue`, `families`, `adobe_symbol`, `choice`
- outlines: `outlines`, `flattening`, `glyph_shapes`
- text: `charsets`, `scripts`, `metrics`, `face_metrics`, `glyphs`, `layout`, `text_lines`, `text_boxes`,
  `layer`
- the output: `output`, `marks`, `budgets`
- blocks: `text_blocks`, `emf_blocks`, `wmf_blocks`
- what happens to each record: `session`, `steps`, and the modules that begin with `emf` and `wmf`
- the command: `command`, `command_line`, `statuses`, `version`, `one_file`, `child` with its limits, `late_catalogue`,
  `proved_check`, `report`, `whole_file`, and `verification`, which alone knows `metaplay_verify`

No other module knows those of the blocks and of what happens to each record, but `convert`; and none knows the
command's.
"""
