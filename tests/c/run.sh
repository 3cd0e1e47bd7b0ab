#!/usr/bin/env bash
# Builds and runs every C test against one library, with each compiler that is here, plain and under the address and undefined-behaviour sanitizers.
#   LIB        the library (default: target/staticlib/libboardid.a)
#   LDLIBS     what the library needs to link, if anything
#   COMPILERS  the C compilers (default: gcc clang); the C++ compiler of each is used too
# The last line is 'c tests: N passed, M failed'; the exit status is 0 only where all passed.
set -uo pipefail
cd "$(dirname "$0")/../.." || exit 1
root=$PWD
lib=${LIB:-target/staticlib/libboardid.a}
read -r -a more <<<"${LDLIBS:-}"
room=$(mktemp -d)
trap 'rm -rf "$room"' EXIT
passed=0 failed=0
editions=(1 2 3 4)
newest=4
version=$(sed -n 's/^@version //p' include/boardid.h.in)
warnings=(-Wall -Wextra -Wpedantic -Wconversion -Wshadow -Werror)

# try NAME COMMAND..: one test, which passes where the command's exit status is 0.
try() {
    local name=$1
    shift
    if "$@" >"$room/output" 2>&1; then
        passed=$((passed + 1))
    else
        failed=$((failed + 1))
        echo "FAILED: $name"
        head -n 40 "$room/output" | sed 's/^/    /'
    fi
}

# refuses COMMAND..: passes where the command's exit status is not 0.
refuses() {
    ! "$@"
}

# The last line; its status is the script's.
finish() {
    echo "c tests: $passed passed, $failed failed"
    [ "$failed" -eq 0 ] && [ "$passed" -gt 0 ]
}

if [ ! -f "$lib" ]; then
    echo "there is no library $lib: build it with make, or say where it is with LIB="
    failed=1
    finish
    exit
fi
lib=$(realpath "$lib")
export UBSAN_OPTIONS=print_stacktrace=1

# The C++ compiler that goes with a C compiler.
plus_plus_of() {
    case $1 in
    *clang*) echo "${1/clang/clang++}" ;;
    *) echo "${1/gcc/g++}" ;;
    esac
}

# program OUT EDITION SOURCE: compiles a C program with an edition's header, and links it with the library.
program() {
    "$cc" -std=c99 "${warnings[@]}" "${flags[@]}" "-Iinclude/edition-$2" -o "$1" "$3" "$lib" "${more[@]}"
}

# The old headers and the new one: the programs old_header-N, of each edition N, in a folder, on the same files. Lists are compared with the newest edition's; what that one's are is old_header.c's to expect.
old_and_new() {
    local folder=$1 editor reader list
    for editor in "${editions[@]}"; do
        mkdir -p "$folder/files/$editor" || return 1
        "$folder/old_header-$editor" list "$folder/files" || return 1
        "$folder/old_header-$editor" change "$folder/files/$editor" || return 1
    done
    for editor in "${editions[@]}"; do
        for list in "$folder/files/"*"-$editor.list"; do
            cmp "$list" "${list%"-$editor.list"}-$newest.list" || return 1
        done
        for reader in "${editions[@]}"; do
            "$folder/old_header-$reader" read "$folder/files/$editor" "$editor" || return 1
        done
    done
}

# One program with a part for each edition, compiled with that edition's header.
all_headers() {
    local folder=$1 edition parts=()
    for edition in "${editions[@]}"; do
        "$cc" -std=c99 "${warnings[@]}" "${flags[@]}" "-Iinclude/edition-$edition" "-DKIND=kind_by_edition_$edition" "-DDATE=date_by_edition_$edition" \
            "-DFRAME=frame_by_edition_$edition" "-DMOVED=moved_by_edition_$edition" "-DROOM=room_by_edition_$edition" -c -o "$folder/first-$edition.o" tests/c/first_entry.c || return 1
        parts+=("$folder/first-$edition.o")
    done
    "$cc" -std=c99 "${warnings[@]}" "${flags[@]}" -o "$folder/all_headers" tests/c/all_headers.c "${parts[@]}" "$lib" "${more[@]}" &&
        "$folder/all_headers"
}

# The examples, with the newest header and, list, edit and room, with each older one, against their stored output; vendor with that of edition 3 compiles.
examples() {
    local folder=$1 name edition
    for name in list edit vendor backup room; do
        "$cc" -std=c99 "${warnings[@]}" "${flags[@]}" -Iinclude -o "$folder/$name" "examples/$name.c" "$lib" "${more[@]}" || return 1
    done
    for name in list edit room; do
        for edition in "${editions[@]}"; do
            [ "$edition" = "$newest" ] || program "$folder/$name-$edition" "$edition" "examples/$name.c" || return 1
        done
    done
    program "$folder/vendor-3" 3 examples/vendor.c || return 1
    tests/c/examples.sh "$folder" >"$folder/examples.out" 2>&1
    diff tests/c/examples.out "$folder/examples.out"
}

# The shared library: what it lets out, what it needs, and how it is linked; then old_header of each edition and the examples, linked with it.
shared() {
    local so=$1/shared/libboardid.so.1.$version lib more folder=$1/shared/programs edition
    make_here "CC=$cc" "OUT=$1/shared" "MAN=$1/shared/man" "LIB=$2" shared || return 1
    lets_out "$so" || return 1
    lib=$1/shared/libboardid.so more=("-Wl,-rpath,$1/shared")
    mkdir -p "$folder"
    for edition in "${editions[@]}"; do
        program "$folder/old_header-$edition" "$edition" tests/c/old_header.c || return 1
    done
    readelf -d "$folder/old_header-1" | grep -q 'NEEDED.*\[libboardid\.so\.1\]' || { echo 'old_header is not linked with the shared library'; return 1; }
    old_and_new "$folder" && examples "$folder"
}

# lets_out FILE: a shared library lets out the calls that the newest header declares, under BOARDID_1, and nothing else; its soname; it needs the C library alone; and it is
# linked so that its own tables are read-only when a program begins.
lets_out() {
    local about=$room/about
    readelf -W -d "$1" >"$about" && readelf -W -l "$1" >>"$about" || return 1
    diff <(grep -o '^uint64_t boardid_[a-z_]*' "include/edition-$newest/boardid.h" | sed 's/^uint64_t \(.*\)/T \1@@BOARDID_1/' | LC_ALL=C sort) \
        <(nm -D --defined-only "$1" | sed 's/^[0-9a-f]* //' | grep -v '^A BOARDID_1$' | LC_ALL=C sort) || return 1
    grep -q 'SONAME.*\[libboardid\.so\.1\]' "$about" || { echo 'another soname'; return 1; }
    grep -q 'FLAGS.*BIND_NOW' "$about" || { echo 'not linked with now'; return 1; }
    grep -q 'GNU_RELRO' "$about" || { echo 'not linked with relro'; return 1; }
    ! grep 'NEEDED' "$about" | grep -v '\[libc\.so\.6\]' || { echo 'needs another library'; return 1; }
    ! grep 'TEXTREL' "$about" || { echo 'code that is changed when it is loaded'; return 1; }
    ! grep 'GNU_STACK.*E ' "$about" || { echo 'a stack that can be run'; return 1; }
}

# A name that the archive has and library/boardid.map has not stays inside; one that it has and the archive has not fails the link.
map_decides() {
    local folder=$room/map
    mkdir -p "$folder/library" || return 1
    printf 'int boardid_secret(void);\nint boardid_secret(void) { return 1; }\n' >"$folder/secret.c"
    "$cc" -c -o "$folder/secret.o" "$folder/secret.c" && cp "$lib" "$folder/more.a" && ar r "$folder/more.a" "$folder/secret.o" || return 1
    make_here "CC=$cc" "OUT=$folder/c" "LIB=$folder/more.a" shared && lets_out "$folder/c/libboardid.so" || return 1
    cp -r Makefile include "$folder" && sed 's/boardid_write;/&\n    boardid_none;/' library/boardid.map >"$folder/library/boardid.map" || return 1
    ! make_here -C "$folder" "CC=$cc" OUT=none "LIB=$lib" shared
}

# A C++ program with an edition's header.
plus_plus() {
    local folder=$1 edition=$2 standard=$3
    "$cxx" "-std=$standard" "${warnings[@]}" "${flags[@]}" "-Iinclude/edition-$edition" -o "$folder/plus_plus" tests/c/plus_plus.cpp \
        "$lib" "${more[@]}" && "$folder/plus_plus"
}

# Whether a text is a C file that an edition's header (0: include/boardid.h) lets compile without a warning.
compiles() {
    local folder=include
    [ "$1" = 0 ] || folder=include/edition-$1
    "$cc" "-std=$2" "${warnings[@]}" "-I$folder" -Iinclude -x c -fsyntax-only - <<<"$3"
}

# The tests of one compiler.
compiler() {
    cc=$1 cxx=$(plus_plus_of "$1")
    local sanitizers=(-O1 -g "-fsanitize=address,undefined" -fno-sanitize-recover=all)
    local flavour folder edition other standard name names
    for flavour in plain sanitized; do
        flags=(-O2)
        if [ "$flavour" = sanitized ]; then
            flags=("${sanitizers[@]}")
            echo 'int main(void) { return 0; }' >"$room/empty.c"
            if ! { "$cc" "${flags[@]}" -o "$room/empty" "$room/empty.c" && "$room/empty"; } >"$room/output" 2>&1; then
                echo "left out: $cc has no sanitizers here"
                continue
            fi
        fi
        folder=$room/$cc-$flavour
        mkdir -p "$folder"
        for edition in "${editions[@]}"; do
            names=(layouts calls changes frames dates before_dates room helpers)
            [ "$edition" -lt 3 ] || names+=(vendor)
            for name in "${names[@]}" old_header; do
                try "$cc, $flavour: $name compiled with edition $edition" program "$folder/$name-$edition" "$edition" "tests/c/$name.c"
            done
            for name in "${names[@]}"; do
                try "$cc, $flavour: $name of edition $edition" "$folder/$name-$edition"
            done
        done
        try "$cc, $flavour: old and new header on the same files" old_and_new "$folder"
        try "$cc, $flavour: all headers in one program" all_headers "$folder"
        try "$cc, $flavour: the examples" examples "$folder"
        [ "$flavour" = sanitized ] || try "$cc: the shared library" shared "$folder" "$lib"
        if command -v "$cxx" >"$room/output"; then
            for edition in "${editions[@]}"; do
                try "$cxx, $flavour: C++17 with edition $edition" plus_plus "$folder" "$edition" c++17
            done
        fi
    done
    flags=(-O2)
    if command -v "$cxx" >"$room/output"; then
        for edition in "${editions[@]}"; do
            for standard in c++98 c++11 c++20; do
                try "$cxx: $standard with edition $edition" plus_plus "$room" "$edition" "$standard"
            done
        done
    else
        echo "left out: there is no $cxx"
    fi

    # Headers alone.
    for edition in 0 "${editions[@]}"; do
        for standard in c99 c11 c17; do
            try "$cc: header $edition alone in $standard" compiles "$edition" "$standard" $'#include <boardid.h>\n#include <boardid.h>'
        done
    done
    try "$cc: boardid.h is edition $newest" compiles 0 c99 "#include <boardid.h>
typedef char newest[BOARDID_EDITION == $newest ? 1 : -1];"
    for edition in "${editions[@]}"; do
        try "$cc: edition $edition is $edition" compiles "$edition" c99 "#include <boardid.h>
typedef char itself[BOARDID_EDITION == $edition ? 1 : -1];"
    done
    for edition in "${editions[@]}"; do
        for other in "${editions[@]}"; do
            [ "$edition" = "$other" ] || try "$cc: editions $edition and $other in one file are refused" refuses compiles 0 c99 \
                "#include \"edition-$edition/boardid.h\"
#include \"edition-$other/boardid.h\""
        done
    done
    brought_by 1 BOARDID_READING_DATE 'sizeof(struct boardid_date)' boardid_record_date boardid_add boardid_remove \
        boardid_add_field boardid_remove_entry \
        BOARDID_REFUSED_ROOM_FILE BOARDID_REFUSED_NO_BOARD BOARDID_REFUSED_BOARD_THERE BOARDID_ROOM_FORM_1 BOARDID_ROOM_MAX \
        BOARDID_ROOM_BOARDS_MAX BOARDID_ROOM_HEAD_SIZE BOARDID_ROOM_ROW_SIZE 'sizeof(struct boardid_room_row)' \
        boardid_room_contents_place boardid_room_write_empty boardid_room_rows boardid_room_row_at \
        boardid_room_add boardid_room_replace boardid_room_remove boardid_room_fetch \
        boardid_room_add_board boardid_room_replace_board boardid_room_remove_board boardid_room_fetch_board \
        BOARDID_VERSION BOARDID_VERSION_TEXT BOARDID_TINY_POOL_MAX boardid_format_name boardid_kind_name boardid_find_code boardid_find_key \
        boardid_record_address_bytes boardid_string_text boardid_pool_strings boardid_pool_append boardid_image_length boardid_write_length \
        boardid_edit_length boardid_add_length
    brought_by 2 BOARDID_FBOSS_X86_CPU_MAC_ADDRESSES BOARDID_FBOSS_BMC_MAC_ADDRESSES BOARDID_FBOSS_SWITCH_ASIC_MAC_ADDRESSES \
        BOARDID_FBOSS_META_RESERVED_MAC_ADDRESSES BOARDID_VPD_INFO BOARDID_TINY_PRODUCT_IDENTITY_BATCH \
        BOARDID_TINY_SYSTEM_PRODUCT_IDENTITY_BATCH BOARDID_READING_IDENTITY_WITH_BATCH boardid_record_batch
    brought_by 3 BOARDID_FORMAT_ONIE BOARDID_ONIE_PRODUCT_NAME BOARDID_ONIE_PART_NUMBER BOARDID_ONIE_SERIAL_NUMBER \
        BOARDID_ONIE_BASE_MAC_ADDRESS BOARDID_ONIE_MANUFACTURE_DATE BOARDID_ONIE_MAC_ADDRESS_COUNT BOARDID_ONIE_MANUFACTURER \
        BOARDID_ONIE_COUNTRY_CODE BOARDID_ONIE_VENDOR BOARDID_ONIE_VENDOR_EXTENSION \
        BOARDID_REFUSED_NO_PAYLOAD BOARDID_REFUSED_PAYLOAD_LENGTH BOARDID_REFUSED_PAYLOAD_CHECK BOARDID_REFUSED_BLOCK \
        BOARDID_VENDOR_PREFIX_LENGTH BOARDID_VENDOR_PIECE_MAX BOARDID_VENDOR_SERIAL_MAX BOARDID_VENDOR_PAYLOAD_MIN \
        BOARDID_VENDOR_PAYLOAD_MAX BOARDID_VENDOR_OFFSETS BOARDID_VENDOR_PIECE_SIZE BOARDID_VENDOR_BLOCK_SIZE \
        BOARDID_VENDOR_C_BAND_WEST_IN BOARDID_VENDOR_C_BAND_WEST_OUT BOARDID_VENDOR_C_BAND_EAST_IN BOARDID_VENDOR_C_BAND_EAST_OUT \
        BOARDID_VENDOR_L_BAND_WEST_IN BOARDID_VENDOR_L_BAND_WEST_OUT BOARDID_VENDOR_L_BAND_EAST_IN BOARDID_VENDOR_L_BAND_EAST_OUT \
        'sizeof(struct boardid_vendor_block)' boardid_signed_word_at boardid_vendor_block_at boardid_vendor_piece_at \
        boardid_vendor_piece_set boardid_vendor_offsets_word boardid_vendor_read boardid_vendor_write \
        boardid_vendor_read_payload boardid_vendor_write_payload \
        BOARDID_READING_DATE_WITH_TIME 'sizeof(struct boardid_time)' boardid_record_time
    brought_by 4 'sizeof(((struct boardid_record *)0)->frame_length)'
    for edition in "${editions[@]}"; do
        name=$'#include <boardid.h>\nvoid use(void);\nvoid use(void) { (void)sizeof(((struct boardid_record *)0)->reserved); }'
        if [ "$edition" -lt 4 ]; then
            try "$cc: edition $edition has the member reserved" compiles "$edition" c99 "$name"
        else
            try "$cc: edition $edition has no member reserved" refuses compiles "$edition" c99 "$name"
        fi
    done
}

# brought_by EDITION NAME..: the headers from an edition on have these names, all of them in one file, and those before have none of them, each in a file of its own.
brought_by() {
    local since=$1 name edition all
    shift
    all=$(printf ' (void)%s;' "$@")
    for edition in "${editions[@]}"; do
        if [ "$edition" -ge "$since" ]; then
            try "$cc: edition $edition has what edition $since brings" compiles "$edition" c99 $'#include <boardid.h>\nvoid use(void);\nvoid use(void) {'"$all }"
        else
            for name in "$@"; do
                try "$cc: edition $edition has no $name" refuses compiles "$edition" c99 $'#include <boardid.h>\nvoid use(void);\nvoid use(void) { (void)'"$name; }"
            done
        fi
    done
}

# names_of EDITION: the names in an edition's header, one on a line.
names_of() {
    grep -o -i 'boardid_[a-z0-9_]*' "include/edition-$1/boardid.h" | sort -u
}

# later_has_all_names EDITION: every name of an edition's header is in that of the next, whatever else is.
later_has_all_names() {
    local names
    names=$(comm -23 <(names_of "$1") <(names_of $(($1 + 1))))
    echo "$names"
    [ -z "$names" ] && [ -n "$(names_of "$1")" ]
}

# The headers are what include/make-headers makes; in a copy where one was edited, and in one whose source has a mistake, it says so and fails.
made_headers() {
    local copy=$room/headers edition
    include/make-headers --check || return 1
    for edition in "${editions[@]}"; do
        rm -rf "$copy" && cp -r include "$copy" || return 1
        sed -i 's/A part of an image/A piece of an image/' "$copy/edition-$edition/boardid.h"
        ! "$copy/make-headers" --check >"$room/made" 2>&1 || return 1
        grep -q "^include/edition-$edition/boardid.h is not what" "$room/made" && grep -q '^-.*A piece of an image' "$room/made" || return 1
        "$copy/make-headers" && diff -r include "$copy" || return 1
    done
    sed -i '0,/^@end$/s//@edn/' "$copy/boardid.h.in"
    ! "$copy/make-headers" && diff -r -x boardid.h.in include "$copy"
}

# exported_calls EDITION: the exported calls that an edition may make, and no other, are declared in its header and defined in the library.
exported_calls() {
    local name names=(check list entry value string step write edit add remove room_add room_replace room_remove room_fetch)
    [ "$1" -lt 3 ] || names+=(vendor_read vendor_write)
    nm -g --defined-only "$lib" >"$room/nm" 2>"$room/nm.errors"
    for name in "${names[@]}"; do
        grep -q " T boardid_$name\$" "$room/nm" || { echo "the library has no boardid_$name"; return 1; }
        grep -q "^uint64_t boardid_$name(" "include/edition-$1/boardid.h" || { echo "the header has no boardid_$name"; return 1; }
    done
    [ "$(grep -c '^uint64_t boardid_' "include/edition-$1/boardid.h")" -eq "${#names[@]}" ]
}

# needed_names: what the library needs from outside is what docs/C-INTERFACE.md names, memcpy and memset, so that a program without a C library can give it.
needed_names() {
    nm -u "$lib" >"$room/nm" 2>"$room/nm.errors" || return 1
    ! sed -n 's/^ *U //p' "$room/nm" | grep -vxE 'memcpy|memset'
}

# Runs make with these words, and nothing of an outer make's.
make_here() {
    env -u MAKEFLAGS -u MAKEOVERRIDES -u DESTDIR -u PREFIX -u INCLUDEDIR -u LIBDIR -u DOCDIR -u LIB make -s "$@"
}

# Runs make with these words where the kit is not to be called: it fails, and leaves a file, where it is.
make_without_kit() {
    local status=0
    mkdir -p "$room/no_kit" && printf '#!/bin/sh\ntouch "%s/no_kit/called"\nexit 1\n' "$room" >"$room/no_kit/rt" && chmod +x "$room/no_kit/rt" || return 1
    PATH="$room/no_kit:$PATH" make_here "$@" || status=$?
    [ ! -e "$room/no_kit/called" ] || { echo 'the kit was called'; return 1; }
    return $status
}

# Runs make install with these words.
install_here() {
    make_without_kit install "LIB=$lib" "OUT=$room/out" "MAN=$room/man" "$@"
}

# A folder's files and links, and the folders that are named after the package.
what_is_in() {
    (cd "$1" && find . ! -type d -o -name boardid -o -name 'edition-*' | LC_ALL=C sort)
}

# Every place that has the version of the package has that of include/boardid.h.in.
versions() {
    local version file
    version=$(sed -n 's/^@version //p' include/boardid.h.in)
    for file in man/boardid.1.scd:"boardid(1) \"boardid $version\"" man/boardid.3.scd:"boardid(3) \"boardid $version\"" \
        man/boardid.3.scd:"\"$version\"" "python/pyproject.toml:version = \"$version\"" "python/boardid/__init__.py:__version__ = \"$version\"" \
        "debian/changelog:boardid ($version-" "CHANGELOG.md:## [$version] - " "docs/C-INTERFACE.md:libboardid.so.1.$version\`"; do
        grep -qF -- "${file#*:}" "${file%%:*}" || { echo "${file%%:*} has no ${file#*:}"; return 1; }
    done
    [ "$(sed -n '1s/^boardid (\([^)-]*\)-.*/\1/p' debian/changelog)" = "$version" ] && [ "$(sed -n '0,/^## /s/^## \[\([^]]*\)\].*/\1/p' CHANGELOG.md)" = "$version" ]
}

# What make installs is enough to build an example with the newest header, and with that of each edition, with the shared library and with the archive; also after it was
# moved elsewhere. What make uninstall leaves is nothing.
installed() {
    local prefix=$room/prefix flags edition name
    install_here "PREFIX=$prefix" || return 1
    cmp "$prefix/include/boardid.h" "include/edition-$newest/boardid.h" || return 1
    what_is_in "$prefix" >"$room/what"
    for name in lib/libboardid.a lib/libboardid.so lib/libboardid.so.1 "lib/libboardid.so.1.$version" share/doc/boardid/LICENSE \
        share/doc/boardid/C-INTERFACE.md share/doc/boardid/examples/list.c share/doc/boardid/examples/image_file.h share/doc/boardid/samples/sku.vpd; do
        grep -q -x "./$name" "$room/what" || { echo "no $name is installed"; return 1; }
    done
    mv "$prefix" "$room/elsewhere" && prefix=$room/elsewhere || return 1
    export PKG_CONFIG_PATH=$prefix/lib/pkgconfig LD_LIBRARY_PATH=$prefix/lib
    pkg-config --atleast-version="$newest" boardid && [ "$(pkg-config --modversion boardid)" = "$version" ] || return 1
    [ "$(realpath "$(pkg-config --variable=libdir boardid)")" = "$prefix/lib" ] || return 1
    [ "$(realpath "$(pkg-config --variable=includedir boardid)")" = "$prefix/include" ] || return 1
    read -r -a flags <<<"$(pkg-config --cflags --libs boardid)"
    (cd "$room" && "$cc" -std=c99 -o list-installed "$prefix/share/doc/boardid/examples/list.c" "${flags[@]}" "${more[@]}") || return 1
    readelf -d "$room/list-installed" | grep -q 'NEEDED.*\[libboardid\.so\.1\]' || { echo 'pkg-config does not give the shared library'; return 1; }
    "$room/list-installed" vpd "$prefix/share/doc/boardid/samples/sku.vpd" | grep -q "edition $newest, 1 entry" || return 1
    for edition in "${editions[@]}"; do
        cmp "$prefix/include/boardid/edition-$edition/boardid.h" "include/edition-$edition/boardid.h" || return 1
        (cd "$room" && "$cc" -std=c99 "-I$(pkg-config --variable="edition_$edition" boardid)" -o list-installed "$root/examples/list.c" "${flags[@]}" "${more[@]}") || return 1
        "$room/list-installed" vpd samples/sku.vpd | grep -q "edition $edition, 1 entry" || return 1
        printf '#include <boardid/edition-%s/boardid.h>\ntypedef char itself[BOARDID_EDITION == %s ? 1 : -1];\n' "$edition" "$edition" >"$room/by_path.c"
        "$cc" -std=c99 "-I$prefix/include" -fsyntax-only "$room/by_path.c" || return 1
    done
    unset LD_LIBRARY_PATH
    # The words of the command line that docs/C-INTERFACE.md has for the archive.
    (cd "$room" && "$cc" -std=c99 -o list-installed "$root/examples/list.c" "-I$prefix/include" "$(pkg-config --variable=libdir boardid)/libboardid.a" "${more[@]}") || return 1
    "$room/list-installed" vpd samples/sku.vpd | grep -q "edition $newest, 1 entry" || return 1
    mkdir -p "$prefix/share/doc/other" "$prefix/include/boardid/mine" && make_without_kit uninstall "prefix=$prefix" || return 1
    rmdir "$prefix/include/boardid/mine" "$prefix/include/boardid" || { echo 'a folder of another is gone'; return 1; }
    [ -z "$(what_is_in "$prefix")" ] || { echo 'uninstall leaves:'; what_is_in "$prefix"; return 1; }
}

# The files go below DESTDIR, into GNU's folders, and boardid.pc names the folders without it. A second install of the same leaves the same. The prefix is a folder of the
# tests too, which stays away, so that nothing is harmed where DESTDIR is forgotten.
staged() {
    local folder=$room/staged real=$room/real pc
    install_here "PREFIX=$real/board" "DESTDIR=$folder" || return 1
    [ -f "$folder$real/board/lib/libboardid.a" ] && [ -f "$folder$real/board/include/boardid.h" ] &&
        [ -f "$folder$real/board/share/doc/boardid/C-INTERFACE.md" ] || return 1
    ! grep -r -F "$room" "$folder$real/board/lib/pkgconfig" || return 1
    what_is_in "$folder" >"$room/once" && install_here "prefix=$real/board" "DESTDIR=$folder" && diff "$room/once" <(what_is_in "$folder") || return 1
    make_without_kit uninstall "prefix=$real/board" "DESTDIR=$folder" && [ -z "$(what_is_in "$folder")" ] || return 1
    install_here "prefix=$real/usr" "libdir=$real/usr/lib/some-where" "includedir=$real/usr/include/here" "docdir=$real/usr/share/doc/libboardid-dev" "DESTDIR=$folder" || return 1
    pc=$folder$real/usr/lib/some-where/pkgconfig/boardid.pc
    cat "$pc"
    grep -q -x -F "prefix=\${pcfiledir}/../../.." "$pc" && grep -q -x -F "libdir=\${prefix}/lib/some-where" "$pc" &&
        grep -q -x -F "includedir=\${prefix}/include/here" "$pc" && [ -f "$folder$real/usr/share/doc/libboardid-dev/LICENSE" ] || return 1
    install_here "PREFIX=$real/board" "LIBDIR=$real/srv/lib" "INCLUDEDIR=$real/srv/include" "DOCDIR=$real/srv/doc" "DESTDIR=$folder" || return 1
    pc=$folder$real/srv/lib/pkgconfig/boardid.pc
    cat "$pc"
    grep -q -x -F "prefix=$real/board" "$pc" && grep -q -x -F "libdir=$real/srv/lib" "$pc" && grep -q -x -F "includedir=$real/srv/include" "$pc" &&
        [ -f "$folder$real/srv/include/boardid/edition-1/boardid.h" ] && [ -f "$folder$real/srv/doc/LICENSE" ] && [ ! -e "$real" ]
}

# Where there is no archive make install says so, and installs nothing.
no_archive() {
    ! make_without_kit install "LIB=$room/none.a" "OUT=$room/none" "prefix=$room/nothing" >"$room/said" 2>&1 &&
        grep -q "^make install: there is no archive $room/none.a; run make first" "$room/said" && [ ! -e "$room/nothing" ] && [ ! -e "$room/none" ]
}

# A copy of the sources, with a command, a manual page and a completion that are there only in name, and one crate.
copy_of_sources() {
    mkdir -p "$1/crates/boardid/src" "$1/command" "$1/man" "$1/completions" && cp -r Makefile LICENSE include library examples samples docs "$1" || return 1
    echo 'boardid staticlib:' >"$1/crates.txt"
    echo 'fn boardid_check' >"$1/crates/boardid/src/lib.rt"
    printf '#include <boardid.h>\n#include <jansson.h>\n#include "own.h"\nint main(void) { return json_is_true(json_false()) || !boardid_check_image(2, 0, 0) || own; }\n' >"$1/command/main.c"
    echo 'enum { own = 0 };' >"$1/command/own.h"
    printf 'boardid(1)\n\n# NAME\n\nboardid - a page\n' >"$1/man/boardid.1.scd"
    printf 'boardid(3)\n\n# NAME\n\nboardid - a page\n' >"$1/man/boardid.3.scd"
    : >"$1/completions/boardid"
}

# Make in a copy of the sources. The first one calls the kit, here one that only copies the archive; the next ones do nothing, and do not call it. Make install takes what
# was made, and clean leaves the archive. Where the sources changed, make calls the kit, and make install does not.
make_twice() {
    local copy=$room/copy
    copy_of_sources "$copy" && mkdir -p "$room/kit" || return 1
    printf '#!/bin/sh\nmkdir -p out && cp "%s" out/libboardid.a\n' "$lib" >"$room/kit/rt" && chmod +x "$room/kit/rt" || return 1
    PATH="$room/kit:$PATH" make_here -C "$copy" all || return 1
    find "$copy/target" -type f -exec touch -r {} {}.time \;
    make_without_kit -C "$copy" all >"$room/second" 2>&1 || return 1
    ! grep -v -e 'is left out' -e 'are left out' "$room/second" || { echo 'make says something a second time'; return 1; }
    find "$copy/target" -type f ! -name '*.time' -exec sh -c '[ "$1" -nt "$1.time" ] && echo "$1 is made a second time"' - {} \; >"$room/again"
    ! grep . "$room/again" || return 1
    make_without_kit -C "$copy" install "prefix=$copy/to" && cmp "$lib" "$copy/to/lib/libboardid.a" || return 1
    make_without_kit -C "$copy" clean && [ ! -e "$copy/target/c" ] && [ ! -e "$copy/target/man" ] && [ -f "$copy/target/staticlib/libboardid.a" ] || return 1
    echo 'fn boardid_more' >>"$copy/crates/boardid/src/lib.rt"
    refuses make_without_kit -C "$copy" shared && rm -f "$room/no_kit/called" || return 1
    make_without_kit -C "$copy" install "prefix=$copy/to"
}

# The command and the manual pages, where what they need is there; where it is not, make says so and makes the rest, and make install leaves them out. A header of the command
# that changes makes it anew.
parts_left_out() {
    local copy=$room/parts name all=(bin/boardid share/man/man1/boardid.1 share/man/man3/boardid.3 share/bash-completion/completions/boardid)
    copy_of_sources "$copy" || return 1
    make_without_kit -C "$copy" "LIB=$lib" PKG_CONFIG=false SCDOC=no_such_scdoc >"$room/said" 2>&1 || { cat "$room/said"; return 1; }
    grep -q '^The command is left out: .*jansson' "$room/said" && grep -q '^The manual pages are left out: .*no_such_scdoc' "$room/said" || return 1
    [ -x "$copy/target/c/list" ] && [ -f "$copy/target/c/libboardid.so" ] && [ ! -e "$copy/target/c/boardid" ] || return 1
    make_without_kit -C "$copy" "LIB=$lib" PKG_CONFIG=false SCDOC=no_such_scdoc "prefix=$copy/less" install >"$room/said" 2>&1 || return 1
    grep -q '^The command is left out' "$room/said" && [ -f "$copy/less/lib/libboardid.so" ] || return 1
    for name in "${all[@]}"; do
        [ ! -e "$copy/less/$name" ] || { echo "$name is installed"; return 1; }
    done
    if ! pkg-config --exists jansson || ! command -v scdoc; then
        echo 'left out: there is no jansson or no scdoc'
        return 0
    fi
    make_without_kit -C "$copy" "LIB=$lib" "prefix=$copy/more" install && "$copy/more/bin/boardid" || return 1
    for name in "${all[@]}"; do
        [ -f "$copy/more/$name" ] || { echo "$name is not installed"; return 1; }
    done
    ! readelf -d "$copy/more/bin/boardid" | grep 'NEEDED.*libboardid' || { echo 'the command needs the shared library'; return 1; }
    touch -d '1 hour ago' "$copy/command/"* "$copy/target/c/command/"* && echo 'enum { own = 1 };' >"$copy/command/own.h" || return 1
    make_without_kit -C "$copy" "LIB=$lib" target/c/boardid && refuses "$copy/target/c/boardid"
}

# The flags of the one who builds are in every line that calls the compiler.
flags_taken() {
    local copy=$room/flags
    copy_of_sources "$copy" || return 1
    make_without_kit -C "$copy" -n "LIB=$lib" CC=the_cc CPPFLAGS=-Dthe_cpp CFLAGS=-the_c LDFLAGS=-the_ld | sed -z 's/\\\n//g' | grep '^the_cc ' >"$room/lines"
    [ "$(grep -c . "$room/lines")" -ge 6 ] || return 1
    ! grep -v -e ' -the_c ' "$room/lines" || { echo 'lines without CFLAGS'; return 1; }
    ! grep -v -e ' -c ' "$room/lines" | grep -v -e ' -the_ld ' || { echo 'lines that link, without LDFLAGS'; return 1; }
    ! grep -e '\.c\( \|$\)' "$room/lines" | grep -v -e ' -Dthe_cpp ' || { echo 'lines that compile, without CPPFLAGS'; return 1; }
}

# The version is said once, and the headers have it.
one_version() {
    [ -n "$version" ] && grep -q -x "#define BOARDID_VERSION_TEXT \"$version\"" include/edition-*/boardid.h &&
        grep -q -x "#define BOARDID_VERSION $((${version%.*} * 100 + ${version#*.}))" include/edition-*/boardid.h && [ "${version%.*}" = "$newest" ]
}

# block KIND N: block N, counted from 1, of the blocks of a kind in docs/C-INTERFACE.md.
block() {
    awk -v start="\`\`\`$1" -v wanted="$2" '$0 == start { take = ++blocks == wanted; next } /^```$/ { take = 0 } take' docs/C-INTERFACE.md
}

# worked_example N EDITION: a worked example of docs/C-INTERFACE.md: its program with an edition's header, and the output that stands there.
worked_example() {
    block c "$1" >"$room/worked.c"
    block text "$1" >"$room/worked.out"
    [ -s "$room/worked.c" ] && [ -s "$room/worked.out" ] || return 1
    program "$room/worked" "$2" "$room/worked.c" || return 1
    "$room/worked" | diff "$room/worked.out" -
}

read -r -a compilers <<<"${COMPILERS:-gcc clang}"
found=()
for cc in "${compilers[@]}"; do
    if command -v "$cc" >"$room/output"; then
        found+=("$cc")
        compiler "$cc"
    else
        echo "left out: there is no $cc"
    fi
done
if [ "${#found[@]}" -eq 0 ]; then
    echo 'there is no C compiler'
    failed=1
    finish
    exit
fi
cc=${found[0]} flags=(-O2)
try 'the headers are what include/make-headers makes' made_headers
for edition in "${editions[@]}"; do
    [ "$edition" = "$newest" ] || try "edition $((edition + 1)) has every name of edition $edition" later_has_all_names "$edition"
    try "edition $edition: the exported calls" exported_calls "$edition"
done
try 'the library needs memcpy and memset from outside, and nothing else' needed_names
if command -v pkg-config >"$room/output"; then
    try 'make install, pkg-config' installed
else
    echo 'left out: there is no pkg-config'
fi
try 'one version everywhere' versions
try 'make install with DESTDIR' staged
try 'make install without an archive' no_archive
try 'make a second time' make_twice
try 'make without jansson and scdoc' parts_left_out
try 'the flags of the one who builds' flags_taken
try 'library/build' tests/c/library_build.sh
try 'library/boardid.map decides what the shared library lets out' map_decides
try 'the version' one_version
for edition in 1 2; do
    for example in 5 6; do
        try "worked example $example of docs/C-INTERFACE.md, edition $edition" worked_example "$example" "$edition"
    done
done
for example in 1 2 3 5 6; do
    try "worked example $example of docs/C-INTERFACE.md, edition 3" worked_example "$example" 3
done
for example in 1 2 3 4 5 6; do
    try "worked example $example of docs/C-INTERFACE.md" worked_example "$example" "$newest"
done
finish
