# `metaplay install PREFIX` and `metaplay uninstall PREFIX`: the proved program, its manual page, completions for three
# shells, recipes, samples, pages, the proved library for C, and metaplay-fixup. DESTDIR, if it is set, stands before each
# path, as packagers need it.
# shellcheck shell=sh disable=SC2154

# shellcheck source=launcher/library.sh
. "$root/launcher/library.sh"
# shellcheck source=launcher/fixup.sh
. "$root/launcher/fixup.sh"
# shellcheck source=launcher/notices.sh
. "$root/launcher/notices.sh"

# The recipe that has the path of the program in it.
filter=$root/docs/recipes/metaplaytopdf

# The pages in which names of files become those of installed files.
pages='RECIPES.md FAULTS.md FIXUP.md FORMATS.md PIXELS.md'

# Calls a function for each file to install, with its mode, where it is, and its place below the prefix.
each_file() {
    "$1" 755 "$program" bin/metaplay
    "$1" 644 "$root/packaging/metaplay.1" share/man/man1/metaplay.1
    "$1" 644 "$root/packaging/metaplay.bash" share/bash-completion/completions/metaplay
    "$1" 644 "$root/packaging/_metaplay" share/zsh/site-functions/_metaplay
    "$1" 644 "$root/packaging/metaplay.fish" share/fish/vendor_completions.d/metaplay.fish
    for recipe in "$root"/docs/recipes/*; do
        if [ -x "$recipe" ]; then mode=755; else mode=644; fi
        [ "$recipe" = "$filter" ] || "$1" "$mode" "$recipe" "share/metaplay/recipes/${recipe##*/}"
    done
    "$1" 755 "$linked/metaplaytopdf" share/metaplay/recipes/metaplaytopdf
    for sample in "$root"/samples/*.[ew]mf "$root"/samples/rejected/*.[ew]mf; do
        "$1" 644 "$sample" "share/metaplay/${sample#"$root/"}"
    done
    for page in $pages; do
        "$1" 644 "$linked/$page" "share/doc/metaplay/$page"
    done
    for page in certify.schema.json fixup.png info.schema.json; do
        "$1" 644 "$root/docs/$page" "share/doc/metaplay/$page"
    done
    "$1" 644 "$linked/NOTICES" share/doc/metaplay/NOTICES
    "$1" 644 "$root/include/metaplay.h" include/metaplay.h
    "$1" 644 "$linked/libmetaplay.a" lib/libmetaplay.a
    "$1" 644 "$linked/libmetaplay.so.$interface" "lib/libmetaplay.so.$interface"
    "$1" 644 "$linked/metaplay.pc" lib/pkgconfig/metaplay.pc
}

# Writes these pages. The recipes and samples that they name are those below the prefix, which is quoted for a shell if
# it has other signs than most. The program isn't installed once more.
make_pages() {
    case $prefix in
        *[!A-Za-z0-9/._+-]*) share="\"$prefix\"/share/metaplay" ;;
        *) share=$prefix/share/metaplay ;;
    esac
    for page in $pages; do
        sed -e "s|\(/path/to/metaplay/\)\{0,1\}docs/recipes/|$share/recipes/|g" \
            -e "s|\([\` ]\)samples/|\1$share/samples/|g" \
            -e 's|fixup/report\.schema\.json|report.schema.json|g' -e '/^install crates\/meta_main\//d' \
            "$root/docs/$page" >"$linked/$page" || exit 3
    done
}

# Keeps the prefix that is given, and the same below DESTDIR.
take_prefix() {
    prefix=${1-}
    while [ "$prefix" != "${prefix%/}" ]; do prefix=${prefix%/}; done
    case $#$prefix in
        1/*) place=${DESTDIR-}$prefix ;;
        *)
            say "usage: metaplay install PREFIX, or metaplay uninstall PREFIX; PREFIX is an absolute path, but not /"
            exit 2
            ;;
    esac
    case $1 in
        *[\"\'\$\`\\\&\|\}]* | *"
"*)
            say "PREFIX can't have a quote, a line feed, or one of \$ \` \\ & | } in it, since installed files name it"
            exit 2
            ;;
    esac
}

install_one() {
    install -D -T -m "$1" -- "$2" "$place/$3" || exit 3
}

# Whether no folder is where a file would be installed.
is_free() {
    if [ -d "$place/$3" ] && [ ! -L "$place/$3" ]; then
        say "$place/$3 is a folder"
        exit 3
    fi
}

remove_one() {
    if [ -e "$place/$3" ] || [ -L "$place/$3" ]; then found=1; fi
    rm -f -- "$place/$3" || status=3
}

# Whether the commands are there that somebody needs.
has_commands() {
    needs=$1
    shift
    for command in "$@"; do
        if ! command -v "$command" >/dev/null; then
            say "$needs needs $command, which is not on the PATH"
            return 1
        fi
    done
}

# Whether those are there that linking the library takes. CC may have options after the command.
can_link() {
    # shellcheck disable=SC2086
    has_commands install rt ar "$(printf '%s\n' ${CC:-cc} | head -n 1)"
}

# A folder for what is linked, which is removed in the end, after a signal too.
take_folder() {
    linked=
    trap 'rm -rf -- "$linked"' EXIT
    trap 'exit 130' INT
    trap 'exit 143' TERM
    trap 'exit 129' HUP
    linked=$(mktemp -d) || exit 3
}

# The program and the library are built first, so that nothing is installed if one of them can't be.
install_all() {
    take_prefix "$@"
    linked=
    can_link && have_built || exit 3
    choose_library
    have_built || exit 3
    each_file is_free
    each_fixup_file is_free
    is_free link - lib/libmetaplay.so
    is_free link - bin/metaplay-fixup
    take_folder
    link_library "$linked" "$prefix" "$built" || exit 3
    write_notices program library >"$linked/NOTICES" || exit 3
    sed "s|/usr/local/bin/metaplay|$prefix/bin/metaplay|" "$filter" >"$linked/metaplaytopdf" || exit 3
    make_pages
    each_file install_one
    ln -sfnT -- "libmetaplay.so.$interface" "$place/lib/libmetaplay.so" || exit 3
    install_fixup
    compile_fixup
}

# The folders that have the program's name go too, if nothing else is in them.
uninstall_all() {
    take_prefix "$@"
    linked=
    found=
    status=0
    each_file remove_one
    [ "$(readlink -- "$place/lib/libmetaplay.so")" != "libmetaplay.so.$interface" ] || remove_one link - lib/libmetaplay.so
    remove_fixup
    for inner in metaplay/recipes metaplay/samples/rejected metaplay/samples metaplay doc/metaplay; do
        rmdir -- "$place/share/$inner" 2>/dev/null
    done
    [ -n "$found" ] || say "nothing was installed below $place"
    return "$status"
}
