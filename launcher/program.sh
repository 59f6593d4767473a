# The proved program and the proved library for C, and whether they were built from the sources as they are.
# shellcheck shell=sh disable=SC2154

# How many seconds go by without a line of progress, at most, in what takes long.
most_silent=30

# Has the functions below speak of one of the two: of the file that the toolchain makes of a crate.
choose() {
    main=$1
    made=$root/crates/$main/out
    built=$made/$2
    # What was built: the checksums of the sources and of the file, the program's version, and that of the toolchain, a
    # line each.
    sums=$made/built.sums
    # The size, the time of the last change and the name of each of these files. As long as this listing stays the
    # same, no checksum is computed again.
    listing=$made/built.list
}

choose_program() {
    choose meta_main meta_main
}

choose_library() {
    choose metaplay_c libmetaplay_c.a
}

choose_program

# The source that has the program's version and the checksum of its other sources.
version=crates/$main/src/version.rt

# Each crate that the file stands on, and its own: a line with its name and the names of the libraries below it.
crates() {
    awk -v main="$main" '
        { sub(/#.*/, "") }
        /^[a-z0-9_]+( staticlib)? *:/ {
            name = $1
            sub(/:.*/, "", name)
            sub(/^[^:]*:/, "")
            names[++count] = name
            below[name] = $0
        }
        END {
            wanted[main] = 1
            for (i = count; i > 0; i--) {
                libraries = wanted[names[i]] ? split(below[names[i]], its) : 0
                for (k = 1; k <= libraries; k++) wanted[its[k]] = 1
            }
            for (i = 1; i <= count; i++) if (wanted[names[i]]) print names[i] below[names[i]]
        }' "$root/crates.txt"
}

# The folders of their sources, from the root.
source_folders() {
    crates | while read -r name _; do
        for part in src specs proofs; do
            [ -d "$root/crates/$name/$part" ] && echo "crates/$name/$part"
        done
    done
}

# The size, the time of the last change and the name of each source, of the file and of the toolchain's commands.
listed() {
    # shellcheck disable=SC2046
    (cd "$root" && find crates.txt $(source_folders) "${built#"$root"/}" -type f -printf '%s %T@ %p\n')
    if kit=$(command -v rt); then
        find "$(dirname "$(readlink -f "$kit")")" -maxdepth 1 -type f -printf '%s %T@ %p\n'
    fi
}

# The checksum of all sources but that of the version, with their names.
sources_sum() {
    # shellcheck disable=SC2046
    (cd "$root" && find crates.txt $(source_folders) -type f ! -path "$version" -print0 | LC_ALL=C sort -z |
        xargs -0 sha256sum) | sha256sum | cut -d ' ' -f 1
}

# The version of the newest entry of CHANGELOG.md.
newest_version() {
    sed -n 's/^## \([0-9.]*\).*/\1/p' "$root/CHANGELOG.md" | head -n 1
}

# What the source of the version has to be, by the newest entry of CHANGELOG.md and by the other sources.
version_text() {
    choose_program
    cat <<END
//! The program's version. This file is written by \`launcher/version\`.

/// The line that \`--version\` writes: the version, and the checksum of all sources but this one.
pub(crate) const VERSION: &str =
    "metaplay $(newest_version) (sources $(sources_sum))\\n";
END
}

# Writes the source of the version, if it isn't as it has to be.
write_version() {
    text=$(version_text)
    [ "$text" != "$(cat "$root/$version" 2>/dev/null)" ] || return 0
    if ! printf '%s\n' "$text" | put "$root/$version" 2>/dev/null; then
        say "cannot write $root/$version"
        return 1
    fi
}

# The toolchain's version. Without a toolchain nothing can be built, so the one that built the file counts.
toolchain() {
    rt version 2>/dev/null || sed -n 's/^toolchain //p' "$sums"
}

# What is there now, as it stands in $sums.
sums_now() {
    echo "sources $(sources_sum)"
    echo "built $(sha256sum <"$built" | cut -d ' ' -f 1)"
    echo "version $(sed -n 's/^ *"\(.*\)\\n";$/\1/p' "$root/$version" 2>/dev/null)"
    echo "toolchain $(toolchain)"
}

# Writes standard input to a file, as a whole.
put() {
    cat >"$1.$$" && mv -f "$1.$$" "$1"
}

# Whether the file can be used: the program run, or the library read.
is_usable() {
    if [ "$main" = meta_main ]; then [ -x "$built" ]; else [ -r "$built" ]; fi
}

# Whether the file is there, and was built from the sources as they are, by this toolchain.
is_fresh() {
    [ -r "$root/crates.txt" ] && is_usable && [ -r "$sums" ] || return 1
    now=$(listed 2>/dev/null)
    [ "$now" = "$(cat "$listing" 2>/dev/null)" ] && return 0
    [ "$(sums_now)" = "$(cat "$sums")" ] || return 1
    echo "$now" | put "$listing" 2>/dev/null
    return 0
}

# Has the file proved and built, if it isn't fresh.
have_built() {
    is_fresh && return 0
    # shellcheck source=launcher/build.sh
    . "$root/launcher/build.sh"
    build_alone
}

# Records that the file was proved and built from the sources that had this checksum, if they still have it.
record_built() {
    now=$(listed)
    if [ "$(sources_sum)" != "$1" ]; then
        say "the sources changed while they were being proved; call it again"
        return 1
    fi
    sums_now | put "$sums" && echo "$now" | put "$listing"
}
