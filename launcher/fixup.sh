# What `metaplay install` installs of metaplay-fixup: the command, its packages in Python, its manual page, completions for
# three shells, and the schema of its report. Its Debian package has the same.
# shellcheck shell=sh disable=SC2154

# Debian's Python, which the command runs by.
python=/usr/bin/python3

# Where the command and its packages are, below the prefix, and where the link to the command leads to.
fixup=share/metaplay/fixup
fixup_link=../$fixup/metaplay-fixup

# Calls a function for each of its files that is copied, with its mode, where it is, and its place below the prefix.
each_fixup_file() {
    "$1" 755 "$linked/metaplay-fixup" "$fixup/metaplay-fixup"
    for module in "$root"/fixup/metaplay_fixup/*.py "$root"/fixup/metaplay_verify/*.py; do
        "$1" 644 "$module" "$fixup/${module#"$root/fixup/"}"
    done
    "$1" 644 "$root/packaging/metaplay-fixup.1" share/man/man1/metaplay-fixup.1
    "$1" 644 "$root/packaging/metaplay-fixup.bash" share/bash-completion/completions/metaplay-fixup
    "$1" 644 "$root/packaging/_metaplay-fixup" share/zsh/site-functions/_metaplay-fixup
    "$1" 644 "$root/packaging/metaplay-fixup.fish" share/fish/vendor_completions.d/metaplay-fixup.fish
    "$1" 644 "$root/fixup/report.schema.json" share/doc/metaplay/report.schema.json
}

# Copies these files, and makes the link. The installed command writes no compiled modules, whoever calls it.
install_fixup() {
    sed '1s/-I$/-IB/' "$root/fixup/metaplay-fixup" >"$linked/metaplay-fixup" || exit 3
    each_fixup_file install_one
    mkdir -p -- "$place/bin" || exit 3
    ln -sfnT -- "$fixup_link" "$place/bin/metaplay-fixup" || exit 3
}

# Compiles the modules, so that no call has to: that takes longer than most files.
compile_fixup() {
    (umask 022 && "$python" -I -m compileall -q -f --invalidation-mode checked-hash "$place/$fixup") ||
        say "metaplay-fixup needs $python, version 3.11 or newer"
}

# Removes what was compiled of a module.
remove_compiled() {
    case $3 in
        *.py)
            module=${3##*/}
            rm -f -- "$place/${3%/*}/__pycache__/${module%.py}".*.pyc
            ;;
    esac
}

# Its folders go too, if nothing else is in them.
remove_fixup() {
    each_fixup_file remove_one
    each_fixup_file remove_compiled
    [ "$(readlink -- "$place/bin/metaplay-fixup")" != "$fixup_link" ] || remove_one link - bin/metaplay-fixup
    for package in metaplay_fixup metaplay_verify; do
        rmdir -- "$place/$fixup/$package/__pycache__" "$place/$fixup/$package" 2>/dev/null || :
    done
    rmdir -- "$place/$fixup" 2>/dev/null || :
}
