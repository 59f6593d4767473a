# `metaplay try`: the program as it stands in the sources, compiled and run once, unproved.
# shellcheck shell=sh disable=SC2154

# The most bytes that a trial of the toolchain's writes.
most_tried=1048576

# A side as `show` takes it: a number from 1 to 8192, with any zeros and a plus before it. Prints it without these, or
# fails.
side_of() {
    digits=${1#+}
    case $digits in
        '' | *[!0-9]*) return 1 ;;
    esac
    while [ "${digits#0}" != "$digits" ]; do digits=${digits#0}; done
    case $digits in
        '' | ?????*) return 1 ;;
    esac
    [ "$digits" -le 8192 ] && echo "$digits"
}

# Reports how long it takes, until standard input ends.
report_seconds() {
    start=$(date +%s)
    until timeout "$most_silent" cat >/dev/null; [ $? -ne 124 ]; do
        say "a trial: $(($(date +%s) - start)) s so far"
    done
}

# Has that reported while this process runs: it holds the other end of a pipe.
begin_reports() {
    folder=$(mktemp -d) && mkfifo "$folder/pipe" || return 0
    report_seconds <"$folder/pipe" >/dev/null &
    exec 9>"$folder/pipe"
    rm -r "$folder"
}

# Shows a file by the program as it stands in the sources. The toolchain's trial runs it without a proof, as this process.
try_unproved() {
    if [ $# -ne 3 ] || ! width=$(side_of "$2") || ! height=$(side_of "$3"); then
        say "usage: metaplay try FILE W H, with W and H from 1 to 8192"
        exit 2
    fi
    if [ $((3 * width * height + 32)) -gt "$most_tried" ]; then
        say "a trial writes at most $most_tried bytes, and an image of $2 by $3 is longer: use 'metaplay show' for it"
        exit 2
    fi
    if [ "$1" != stdin ]; then
        if [ ! -r "$1" ] || [ -d "$1" ]; then
            say "cannot read"
            exit 3
        fi
        exec <"$1"
    fi
    if ! command -v rt >/dev/null 2>&1; then
        say "the toolchain's command rt is not on the PATH"
        exit 3
    fi
    say "a trial, in which nothing is proved: it reads and compiles the program, for a minute or more ..."
    begin_reports
    cd "$root/crates/$main" && exec rt try -- show stdin "$width" "$height"
}
