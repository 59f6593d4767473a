# The copyright of a Debian package with linked code: the page NOTICES, without terms that each Debian system has.
# shellcheck shell=sh disable=SC2154

# Debian's copy of the Apache License. Its policy is that packages point to it.
apache=/usr/share/common-licenses/Apache-2.0

# Standard input, with a pointer in place of the terms of the Apache License wherever they have the words of Debian's
# copy.
point_to_common() {
    apache=$apache awk '
        function flat(text) { gsub(/[ \t]+/, " ", text); return text }
        function begins(line) { return line ~ /^ *Apache License$/ }
        function ends(line) { return line ~ /^ *END OF TERMS AND CONDITIONS$/ }
        BEGIN {
            while ((getline line <ENVIRON["apache"]) > 0) {
                if (begins(line)) inside = 1
                if (inside) terms = terms " " line
                if (ends(line)) inside = 0
            }
        }
        begins($0) { holding = 1 }
        !holding { print; next }
        { held = held $0 "\n"; words = words " " $0 }
        ends($0) {
            if (flat(words) != flat(terms)) printf "%s", held
            else print "The Apache License, Version 2.0: its terms are in\n" ENVIRON["apache"] "."
            held = words = ""
            holding = 0
        }
        END { printf "%s", held }'
}

# Writes the copyright of the package, which has the code of `program` or `library` in it.
write_copyright() {
    write_notices "$1" >"$folder/NOTICES"
    point_to_common <"$folder/NOTICES" >"$place/share/doc/$package/copyright"
}
