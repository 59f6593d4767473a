# The page NOTICES: the licences of the toolchain's libraries that are linked into the program and the library for C.
# shellcheck shell=sh disable=SC2154

# The folder of the toolchain.
kit_folder() {
    dirname "$(dirname "$(readlink -f "$(command -v rt)")")"
}

# The toolchain's libraries below these files, which are `program`, `library` or both: those that our crates name, std,
# which no crate names, and all below them, in order.
kit_libraries() {
    below=$(for file in "$@"; do (choose_"$file" && crates); done | rlibs=$(kit_folder)/rlibs awk '
        { own[$1] = 1; for (i = 2; i <= NF; i++) named[$i] = 1 }
        END {
            names[count = 1] = "std"
            for (name in named) if (!(name in own)) names[++count] = name
            for (i = 1; i <= count; i++) {
                if (seen[names[i]]++) continue
                file = ENVIRON["rlibs"] "/" names[i] ".rlib/format"
                while ((got = getline line <file) > 0)
                    if (split(line, words, " ") == 2 && words[1] == "dep") names[++count] = words[2]
                close(file)
                print got < 0 ? file : names[i]
                if (got < 0) exit 1
            }
        }') || { say "cannot read $(printf '%s\n' "$below" | tail -n 1)"; return 1; }
    printf '%s\n' "$below" | LC_ALL=C sort
}

# A line for each licence file of these libraries: a number, which is the same where the text is the same, the library's
# name, and the file's.
licence_files() {
    for name in "$@"; do
        for file in "$(kit_folder)/rattle/$name"/LICENSE*; do
            [ ! -e "$file" ] || echo "$(sha256sum <"$file" | cut -d ' ' -f 1) $name ${file##*/}"
        done
    done | awk '!($1 in number) { number[$1] = ++count } { print number[$1], $2, $3 }'
}

# Words as a sentence lists them.
listed_words() {
    printf '%s\n' "$@" | awk '
        { words[NR] = $0 }
        END { for (i = 1; i <= NR; i++) printf "%s%s", words[i], i == NR ? "" : i == NR - 1 ? " and " : ", " }'
}

# The toolchain's archives of C code that are linked into these files.
kit_archives() {
    case " $* " in
        *' program '*) echo liblibc_c.a libos_c.a ;;
        *) echo liblibc_c.a ;;
    esac
}

# What the page begins with: whom to ask, by the libraries without a licence file, and the archives.
notices_head() {
    fold -s -w 80 <<END | sed 's/ *$//'
metaplay itself has no licence yet: its owner chooses one. Until then, ask the owner before you pass it on.

These parts of the Rattle toolchain are linked into it, and have no licence file: the libraries $1, and the C code of $2. Ask the toolchain's owner before you pass a binary on.

These libraries of the toolchain are linked into it too, and have licence files. Their texts follow, each of them once.

END
}

# Writes the page for these files.
write_notices() (
    libraries=$(kit_libraries "$@") || exit 1
    # Names of libraries are words.
    # shellcheck disable=SC2086
    licences=$(licence_files $libraries)
    bare=$(printf '%s\n' "$licences" '' "$libraries" | awk '/ / { has[$2] = 1 } NF == 1 && !($1 in has)')
    # shellcheck disable=SC2046,SC2086
    notices_head "$(listed_words $bare)" "$(listed_words $(kit_archives "$@"))"
    printf '%s\n' "$licences" | awk '
        $2 != last { printf "%s%s:", last ? "\n" : "", last = $2; mark = "" }
        { printf "%s %s [%s]", mark, $3, $1; mark = "," }
        END { print "\n" }'
    printf '%s\n' "$licences" | awk '!seen[$1]++' | while read -r number name file; do
        printf '%s\n[%s]\n\n' ---------------------------------------- "$number"
        cat "$(kit_folder)/rattle/$name/$file"
        echo
    done
)
