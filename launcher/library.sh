# The library for C: an archive, a shared library that is linked from it, and a file for pkg-config.
# shellcheck shell=sh disable=SC2154

# The version of the interface: a program that was linked with one finds no other.
interface=1

# Makes libmetaplay.a, libmetaplay.so.1 and metaplay.pc in a folder, from the archive that the toolchain made. They are
# for a library that is installed below a prefix.
link_library() {
    make_archive "$1" "$3" && link_shared "$1" && write_pc "$2" >"$1/metaplay.pc"
}

# One archive of the proved library, and of the toolchain's functions that call malloc.
make_archive() {
    heap=$(kit_folder)/c/liblibc_c.a
    mkdir "$1/objects" || return 1
    (cd "$1/objects" && ar x "$2" && ar x "$heap" && ar rcsD ../libmetaplay.a ./*)
}

# The shared library. It defines the names of the header, with the interface as their version, and no others. What the
# loader writes to is read-only before the library runs. CC and LDFLAGS may be several words.
link_shared() {
    echo "METAPLAY_$interface { global: metaplay_*; local: *; };" >"$1/names.map" || return 1
    # shellcheck disable=SC2086
    ${CC:-cc} ${LDFLAGS-} -shared -o "$1/libmetaplay.so.$interface" -Wl,-soname,"libmetaplay.so.$interface" \
        -Xlinker --version-script="$1/names.map" -Wl,-z,defs -Wl,-z,relro,-z,now \
        -Wl,--whole-archive "$1/libmetaplay.a" -Wl,--no-whole-archive
}

# What pkg-config reads. A `#` would begin a comment.
write_pc() {
    cat <<END
prefix=$(printf '%s' "$1" | sed 's/#/\\#/g')
libdir=\${prefix}/lib
includedir=\${prefix}/include

Name: metaplay
Description: Checks Windows metafiles (WMF, EMF), and plays those that pass
Version: $(newest_version)
Cflags: -I"\${includedir}"
Libs: -L"\${libdir}" -lmetaplay
END
}
