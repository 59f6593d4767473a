# Completions of metaplay-fixup for fish. Made by packaging/make_fixup_manual.py.
complete -c metaplay-fixup -l out-dir -x -a '(__fish_complete_directories)' -d 'convert each FILE into a file of the same name in this folder'
complete -c metaplay-fixup -l report -r -d 'write a line of JSON for each replaced record and each file'
complete -c metaplay-fixup -l fonts -x -a '(__fish_complete_directories)' -d 'folders of fonts, with all below'
complete -c metaplay-fixup -l map -x -d 'the family for a face'
complete -c metaplay-fixup -l instead -x -d 'the family for each face that has none'
complete -c metaplay-fixup -l fallback -x -d "a family for glyphs that a font hasn't"
complete -c metaplay-fixup -l code-page -x -d 'the code page of text in charset 1 (1252)'
complete -c metaplay-fixup -l text-only -d 'replace text alone'
complete -c metaplay-fixup -l strokes -d 'replace strokes whose dashes, caps or joins metaplay leaves out (off)'
complete -c metaplay-fixup -l alpha -x -a 'white' -d 'lay bitmaps that let light through on white'
complete -c metaplay-fixup -l drop-emf-plus -d 'leave out comments that hold EMF+'
complete -c metaplay-fixup -l bound -x -d "the largest surface's side (8192)"
complete -c metaplay-fixup -l check -x -d "reject a result that metaplay won't certify at this size"
complete -c metaplay-fixup -l allow -x -a 'held-deletion emf-plus' -d 'with --check: also accept this'
complete -c metaplay-fixup -l verify -r -d "print whether all but the marked places of FILE is the original's, and with --text-only these only draw text"
complete -c metaplay-fixup -s V -l version -d 'print the version'
complete -c metaplay-fixup -s h -l help -d 'print help'
