# What the makers of Debian packages have in common: they fill a folder as `metaplay install /usr` does, and pack it.
# shellcheck shell=sh disable=SC2154

# shellcheck source=launcher/program.sh
. "$root/launcher/program.sh"
# shellcheck source=launcher/install.sh
. "$root/launcher/install.sh"

say() {
    echo "${0##*/}: $*" >&2
}

# Keeps the only word of a command line, which the usage calls so.
take_word() {
    called=$1
    shift
    given=${1-}
    case $#$given in
        1[!-]*) ;;
        *)
            echo "usage: ${0##*/} $called" >&2
            exit 2
            ;;
    esac
}

# Keeps the maintainer, the version and the date of packages, and makes a folder for them, which is removed in the end.
# The words are the commands that making them takes.
begin() {
    if [ -z "${DEBFULLNAME-}" ] || [ -z "${DEBEMAIL-}" ]; then
        say "DEBFULLNAME and DEBEMAIL must be the maintainer's name and address"
        exit 2
    fi
    has_commands packing "$@" || exit 3
    maintainer="$DEBFULLNAME <$DEBEMAIL>"
    version=$(newest_version)
    export SOURCE_DATE_EPOCH="${SOURCE_DATE_EPOCH:-$(date +%s)}"
    folder=
    trap 'rm -rf "$folder"' EXIT
    trap 'exit 130' INT
    trap 'exit 143' TERM
    trap 'exit 129' HUP
    folder=$(mktemp -d)
    umask 022
    mkdir "$folder/linked"
}

# Begins a package of this name, from a source of the same name or another one.
begin_package() {
    package=$1
    source=${2-$1}
    files=$folder/$package
    place=$files/usr
    mkdir -p "$files/DEBIAN" "$place/share/doc/$package"
}

# Has its files as Debian has them: compressed manual pages and a changelog, and completions where Debian's zsh looks.
follow_debian() {
    [ ! -e "$place/share/man" ] || gzip -9n "$place"/share/man/man1/*.1
    [ ! -e "$place/share/zsh" ] || mv "$place/share/zsh/site-functions" "$place/share/zsh/vendor-completions"
    gzip -9nc >"$place/share/doc/$package/changelog.gz" <<END
$source ($version) unstable; urgency=medium

  * Version $version.

 -- $maintainer  $(LC_ALL=C date -R -u -d "@$SOURCE_DATE_EPOCH")
END
}

# Has Debian's Python compile the package's modules, as the words for py3compile say, and remove that again: who runs or
# imports them writes nothing.
have_compiled() {
    cat >"$files/DEBIAN/postinst" <<END
#!/bin/sh
set -e
if [ "\$1" = configure ]; then py3compile $1; fi
END
    cat >"$files/DEBIAN/prerm" <<END
#!/bin/sh
set -e
py3clean -p $package
END
    chmod 755 "$files/DEBIAN/postinst" "$files/DEBIAN/prerm"
}

# The kibibytes of all files, each rounded up: a file system's folders have sizes of their own.
installed_size() {
    find "$place" -type f -printf '%s\n' | awk '{ total += int(($1 + 1023) / 1024) } END { print total }'
}

# Packs the files into a file, whose bytes don't depend on the number of processors.
pack() {
    (cd "$files" && find usr -type f -exec md5sum {} + | LC_ALL=C sort -k 2 >DEBIAN/md5sums)
    find "$files" -exec touch -hd "@$SOURCE_DATE_EPOCH" {} +
    DPKG_DEB_THREADS_MAX=1 dpkg-deb --root-owner-group --build "$files" "$1" >/dev/null
}
