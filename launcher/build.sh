# Proves and builds the program or the library for C, crate by crate, as crates.txt lists them. The toolchain takes all
# processors for a crate, and locks those below it, so two at a time would take no less time.
# shellcheck shell=sh disable=SC2154

# A time in seconds, as a message says it: in minutes if it is long.
span() {
    if [ "$1" -lt 300 ]; then echo "$1 s"; else echo "$((($1 + 30) / 60)) min"; fi
}

# Proves and builds one crate, for the program with a run on a sample to see that it works. Leaves its seconds in
# NAME.done or NAME.failed.
build_crate() {
    name=$1
    begun=$(date +%s)
    cd "$root/crates/$name" || exit 1
    trap 'kill "$building"; exit 1' TERM
    if [ "$name" = meta_main ]; then
        rt run -- show stdin 1 1 <"$root/samples/dot.wmf" >"$logs/$name.log" 2>&1 &
    else
        rt lib >"$logs/$name.log" 2>&1 &
    fi
    building=$!
    if wait "$building"; then end='done'; else end='failed'; fi
    echo $(($(date +%s) - begun)) | put "$logs/$name.$end"
}

# What is known of the build, a line each: how long each crate takes by launcher/seconds, which has seconds of processor
# of one run; the seconds of those that are built and of the one that is being built; and all crates.
known() {
    sed 's/^/said /' "$root/launcher/seconds"
    for file in "$logs"/*.done; do
        [ ! -e "$file" ] || echo "built $(basename "$file" .done) $(cat "$file")"
    done
    [ -e "$logs/$name.done" ] || echo "begun $name $(($(date +%s) - begun))"
    crates | sed 's/^/crate /'
}

# About how many seconds are to come, by that. Crates take as much longer or shorter than the table says as those did
# that are built, and a crate that isn't in the table a minute of it. What takes longer already goes on for another
# tenth. Crates that an earlier build left take no time, and say nothing. Nothing is printed if no other crate is built.
to_come() {
    known | awk '
        function by_table(name) { return name in said ? said[name] : 60 }
        $1 == "said" { said[$2] = $3 }
        $1 == "built" { ended[$2]; if ($3 > 1) { took += $3; table += by_table($2) } }
        $1 == "begun" { name = $2; since = $3 }
        $1 == "crate" && !($2 in ended) { if ($2 == name) own = by_table($2); else others += by_table($2) }
        END {
            if (!table) exit
            slower = took / table
            if (since > own * slower) slower = (took + 1.1 * since) / (table + own)
            left = own * slower - since
            if (left < since / 10) left = since / 10
            print int(left + others * slower + 0.5)
        }'
}

# How long it took so far and, if that can be said, about how long it will take.
duration() {
    left=
    [ "$reported" -eq "$total" ] || left=$(to_come)
    echo "$(span $(($(date +%s) - start))) so far${left:+, about $(span "$left") to come}"
}

# Reports the crate that is being built, if nothing was reported for a while: its seconds, and how many of its functions
# are checked, if the toolchain has said so.
report_running() {
    [ $(($(date +%s) - last)) -ge "$most_silent" ] || return 0
    last=$(date +%s)
    checked=$(sed -n 's/^so far:.* \([0-9][0-9]* of [0-9][0-9]*\).*/, \1 functions/p' "$logs/$name.log" 2>/dev/null | tail -n 1)
    say "proving $name: $((last - begun)) s$checked; $(duration)"
}

# Has the crate that is being built stop, after the caller has stopped this process.
stop_building() {
    kill "$child" 2>/dev/null
    rm -rf "$logs"
    exit 3
}

# Whether each crate is built. Reports each, until all are built or one can't be. A crate doesn't keep the lock if this
# process is killed.
build_crates() {
    for name in $(crates | cut -d ' ' -f 1); do
        begun=$(date +%s)
        (exec 9>&- && build_crate "$name") &
        child=$!
        until [ -e "$logs/$name.done" ]; do
            if [ -e "$logs/$name.failed" ]; then
                say "$name could not be built; see $logs/$name.log"
                return 1
            fi
            sleep 1
            report_running
        done
        reported=$((reported + 1))
        last=$(date +%s)
        say "$name proved and built in $(cat "$logs/$name.done") s ($reported of $total); $(duration)"
    done
}

# Proves and builds all crates, and records it.
build() {
    total=$(crates | wc -l)
    reported=0
    child=
    start=$(date +%s)
    last=$start
    write_version || return 1
    sum=$(sources_sum)
    case $main in
        meta_main) hint="; '$0 try' doesn't wait for it, and proves nothing" ;;
        *) hint= ;;
    esac
    say "proving and building $total crates$hint ..."
    build_crates || return 1
    record_built "$sum" || return 1
    rm -rf "$logs"
    say "built in $(span $(($(date +%s) - start)))"
}

# The same, unless another process is building: then waits until that ends, and builds what it didn't. The lock ends
# with the process that has it.
build_alone() {
    if [ ! -r "$root/crates.txt" ]; then
        say "crates.txt is missing"
        return 1
    fi
    if ! command -v rt >/dev/null 2>&1; then
        say "the toolchain's command rt is not on the PATH"
        return 1
    fi
    logs=$made/build.$$
    if ! { mkdir -p "$made" && touch "$made/lock"; } 2>/dev/null; then
        say "cannot write to $made, where it has to be built"
        return 1
    fi
    exec 9>"$made/lock"
    if ! flock -n 9; then
        say "another build is running; waiting for it ..."
        flock 9
        is_fresh && return 0
    fi
    rm -rf "$made"/build "$made"/build.* && mkdir -p "$logs" || return 1
    trap stop_building INT TERM HUP
    build || return 1
    trap - INT TERM HUP
    exec 9>&-
}
