#!/usr/bin/env bash
# Builds the Debian packages from a copy of the tree, and tries them in a fresh root: tests/debian.sh [--folder] [ARCHIVE]
#   ARCHIVE   the library that is built already (default: target/staticlib/libboardid.a); nothing is proved here
#   --folder  tries the packages in a folder, with the machine's own programs, and makes no root. So it does where the machine cannot make one: it is made by
#             mmdebstrap, as root, from Debian's mirror
# Debian packages that it needs are installed where they are missing; without root it says which they are.
# The last line is 'debian: N passed, M failed'; the exit status is 0 only where all passed.
set -euo pipefail
cd "$(dirname "$0")/.."

usage() {
    echo "usage: $0 [--folder] [ARCHIVE]" >&2
    exit 2
}

folder=''
if [ "${1:-}" = --folder ]; then
    folder=yes
    shift
fi
[ $# -le 1 ] || usage
archive=${1:-target/staticlib/libboardid.a}
case $archive in -*) usage ;; esac
if [ ! -f "$archive" ]; then
    echo "there is no archive $archive: build it with make, or name one" >&2
    exit 2
fi
archive=$(realpath "$archive")
export PATH=/usr/local/sbin:/usr/sbin:/usr/bin:/sbin:/bin LC_ALL=C.UTF-8 DEBIAN_FRONTEND=noninteractive
unset DEB_BUILD_OPTIONS DEB_BUILD_PROFILES MAKEFLAGS MAKEOVERRIDES MAKELEVEL CFLAGS CPPFLAGS LDFLAGS DESTDIR BOARDID BOARDID_LIBRARY PYTHONPATH
passed=0 failed=0

# The packages, by name.
packages=(libboardid1 libboardid-dev boardid python3-boardid)

# What this script and the build need, and what the root is made with.
needed=(build-essential debhelper dh-python git libjansson-dev lintian man-db mandoc pkg-config pybuild-plugin-pyproject python3-all python3-pytest python3-setuptools scdoc)
[ -n "$folder" ] || needed+=(mmdebstrap)
missing=()
for name in "${needed[@]}"; do
    case $(dpkg-query -W -f='${db:Status-Status}' "$name" 2>/dev/null || true) in
    installed) ;;
    *) missing+=("$name") ;;
    esac
done
if [ ${#missing[@]} -gt 0 ]; then
    if [ "$(id -u)" -ne 0 ]; then
        echo "these Debian packages are missing: ${missing[*]}" >&2
        exit 2
    fi
    echo "installing ${missing[*]}"
    apt-get update -q && apt-get install -y -q --no-install-recommends "${missing[@]}"
fi

room=$(mktemp -d)
trap 'rm -rf -- "$room"' EXIT
trap 'exit 1' HUP INT TERM
chmod 755 "$room"
root=$room/root
version=$(dpkg-parsechangelog -S Version | sed 's/-[^-]*$//')
multiarch=$(dpkg-architecture -q DEB_HOST_MULTIARCH)

# try NAME COMMAND..: one test, which passes where the command's exit status is 0; of a function, where every line of it has status 0.
try() {
    local name=$1 status
    shift
    set +e
    (
        set -e
        "$@"
    ) >"$room/output" 2>&1
    status=$?
    set -e
    if [ "$status" -eq 0 ]; then
        passed=$((passed + 1))
        echo "passed: $name"
    else
        failed=$((failed + 1))
        echo "FAILED: $name"
        tail -n 40 "$room/output" | sed 's/^/    /'
    fi
    return 0
}

# The last line; its status is the script's.
finish() {
    echo "debian: $passed passed, $failed failed"
    [ "$failed" -eq 0 ] && [ "$passed" -gt 0 ]
}

# is FOUND WANTED: whether two texts are the same; it shows them where they are not.
is() {
    if [ "$1" != "$2" ]; then
        printf 'found:  %s\nwanted: %s\n' "$1" "$2"
        return 1
    fi
}

# status WANTED COMMAND..: whether a command has that exit status.
status() {
    local wanted=$1 found=0
    shift
    "$@" || found=$?
    is "status $found of $*" "status $wanted of $*"
}

# fails COMMAND..: whether a command has another exit status than 0.
fails() {
    if "$@"; then
        echo "not refused: $*"
        return 1
    fi
}

# ---- The build ------------------------------------------------------------------------------------

# The tree as it stands, without what is built.
copy_tree() {
    mkdir "$room/tree"
    if git rev-parse --is-inside-work-tree >/dev/null 2>&1; then
        git ls-files -z --cached --others --exclude-standard | while IFS= read -r -d '' file; do
            if [ -e "$file" ] || [ -L "$file" ]; then printf '%s\0' "$file"; fi
        done | tar --null --no-recursion -T - -cf - | tar -xf - -C "$room/tree"
    else
        tar --exclude=./target --exclude=./host/*/target --exclude=./crates/*/out -cf - . | tar -xf - -C "$room/tree"
    fi
    [ -f "$room/tree/debian/rules" ]
}

# Without an archive the build ends at once, and says what is missing.
no_archive() {
    fails make -C "$room/tree" -f debian/rules build >"$room/no-archive" 2>&1
    grep 'there is no archive target/staticlib/libboardid.a' "$room/no-archive"
    make -C "$room/tree" -f debian/rules clean
}

# nocheck leaves the tests out, and nothing else does.
nocheck() {
    is "$(make -s -n -C "$room/tree" -f debian/rules override_dh_auto_test | grep -c -F tests/command/run.sh)" 1
    is "$(DEB_BUILD_OPTIONS=nocheck make -s -n -C "$room/tree" -f debian/rules override_dh_auto_test | grep -c -F tests/ || true)" 0
}

build() {
    mkdir -p "$room/tree/target/staticlib"
    cp "$archive" "$room/tree/target/staticlib/libboardid.a"
    (cd "$room/tree" && DEB_BUILD_OPTIONS=parallel=2 dpkg-buildpackage -b -us -uc) >"$room/build.log" 2>&1 || {
        tail -n 40 "$room/build.log"
        return 1
    }
}

# The tests of the command and those of the module ran in the build.
build_tested() {
    grep -E '^([0-9]+ passed|.* [0-9]+ passed)' "$room/build.log"
    is "$(grep -cE '(^|[ =])[0-9]+ passed' "$room/build.log")" 2
}

# What the build took is what it was given: the archive in the package has the same code, and the build has left it as it was.
same_archive() {
    cmp "$archive" "$room/tree/target/staticlib/libboardid.a"
    objdump -d "$archive" | sed 1,2d >"$room/given"
    dpkg-deb --fsys-tarfile "$room/libboardid-dev_"*.deb | tar -xO "./usr/lib/$multiarch/libboardid.a" >"$room/packaged.a"
    objdump -d "$room/packaged.a" | sed 1,2d >"$room/packaged"
    [ -s "$room/given" ]
    cmp "$room/given" "$room/packaged"
}

lintian_says_nothing() {
    local words=()
    [ "$(id -u)" -ne 0 ] || words+=(--allow-root)
    lintian --fail-on 'error,warning' "${words[@]}" "$room"/boardid_*.changes
}

# The packages are those that are meant to be, and the one for Python names the library.
right_packages() {
    local name
    for name in "${packages[@]}"; do
        is "$(dpkg-deb -f "$room/${name}_"*.deb Version)" "$version-1"
    done
    is "$(dpkg-deb -f "$room/python3-boardid_"*.deb Architecture)" all
    dpkg-deb -f "$room/python3-boardid_"*.deb Depends | grep -E "(^|, )libboardid1 \(>= ${version//./\\.}\)"
    dpkg-deb -f "$room/libboardid-dev_"*.deb Depends | grep -F "libboardid1 (= $version-1)"
    for name in libboardid1 libboardid-dev boardid; do
        is "$(dpkg-deb -f "$room/${name}_"*.deb Architecture)" amd64
    done
    for name in libboardid1 libboardid-dev; do
        is "$(dpkg-deb -f "$room/${name}_"*.deb Multi-Arch)" same
    done
}

# ---- The root -------------------------------------------------------------------------------------

# A root by mmdebstrap, with a compiler, pkg-config and Python. Its status says whether it could be made.
make_root() {
    local suite
    # shellcheck disable=SC1091 # the machine's own file
    suite=$(. /etc/os-release && echo "${VERSION_CODENAME:-stable}")
    [ "$(id -u)" -eq 0 ] || { echo 'a root is made as root only' && return 1; }
    mmdebstrap --quiet --variant=apt --include=gcc,libc6-dev,pkg-config,python3,libjansson4 "$suite" "$root"
}

# An empty folder with a package database.
make_folder() {
    mkdir -p "$root/var/lib/dpkg/info" "$root/var/lib/dpkg/updates" "$root/var/lib/dpkg/triggers"
    : >"$root/var/lib/dpkg/status"
}

# The names of all files of the root but those that every installation changes.
files_of_root() {
    (cd "$root" && find . -xdev \( -path ./var/lib/dpkg -o -path ./var/log -o -path ./var/cache -o -path ./try -o -path ./etc/ld.so.cache \) -prune -o -print | sort)
}

# The machine's dpkg on the folder. Packages are unpacked there and not configured, for it has no shell that could run their scripts.
dpkg_folder() {
    local words=(--force-depends --force-not-root)
    dpkg --root="$root" --log="$room/dpkg.log" "${words[@]}" "$@"
}

install_packages() {
    local name debs=()
    files_of_root >"$room/before"
    for name in "${packages[@]}"; do
        debs+=("$room/${name}_"*.deb)
    done
    if [ -n "$folder" ]; then
        dpkg_folder --unpack "${debs[@]}"
    else
        mkdir "$root/try"
        cp "${debs[@]}" "$root/try"
        chroot "$root" /bin/sh -c 'cd /try && dpkg -i ./*.deb && rm ./*.deb'
    fi
    mkdir -p "$root/try"
    cp "$root/usr/share/doc/libboardid-dev/examples/samples/"* "$root/try"
}

purge_packages() {
    if [ -n "$folder" ]; then
        dpkg_folder --purge "${packages[@]}"
    else
        chroot "$root" dpkg --purge "${packages[@]}"
    fi
    files_of_root >"$room/after"
    diff "$room/before" "$room/after"
    fails grep -E '^Package: .*boardid' "$root/var/lib/dpkg/status"
}

# inside COMMAND..: runs a command in the root, or in the folder with the machine's programs, with the samples in the folder where it runs.
inside() {
    if [ -n "$folder" ]; then
        (cd "$root/try" && env -i "PATH=$root/usr/bin:/usr/bin:/bin" LC_ALL=C.UTF-8 "LD_LIBRARY_PATH=$root/usr/lib/$multiarch" "PYTHONPATH=$root/usr/lib/python3/dist-packages" \
            PYTHONDONTWRITEBYTECODE=1 "PKG_CONFIG_PATH=$root/usr/lib/$multiarch/pkgconfig" "$@")
    else
        env -i PATH=/usr/bin:/bin LC_ALL=C.UTF-8 PYTHONDONTWRITEBYTECODE=1 /usr/sbin/chroot "$root" /bin/sh -c 'cd /try && exec "$@"' sh "$@"
    fi
}

# What stands before the path of a file of the root, as a command inside sees it.
above() {
    if [ -n "$folder" ]; then echo "$root"; fi
}

# ---- What is tried there --------------------------------------------------------------------------

command_version() {
    is "$(inside boardid --version)" "boardid $version"$'\n''editions 1 to 4'
}

command_reads() {
    local file
    for file in fboss.bin sku.vpd board.vpd names.vpd frames.vpd tiny.bin onie.bin amplifier.bin; do
        inside boardid list "$file"
        inside boardid check "$file"
    done
    is "$(inside boardid get onie.bin serial)" LAB-000471
    is "$(inside boardid get sku.vpd SKU)" A7
    inside boardid vendor amplifier.bin | grep -F DQ000MPW
    inside boardid room list room.bin | grep -F 4026531841
    inside boardid names | grep -F 'Product Serial Number'
}

command_changes() {
    inside cp onie.bin my.bin
    inside boardid set --dry-run my.bin serial SN-0042
    cmp "$root/try/onie.bin" "$root/try/my.bin"
    inside boardid set my.bin serial SN-0042
    is "$(inside boardid get my.bin serial)" SN-0042
    is "$(stat -c %s "$root/try/my.bin")" 512
    inside boardid remove my.bin country
    status 1 inside boardid get my.bin country
    inside boardid add my.bin country DE
    is "$(inside boardid get my.bin country)" DE
    inside boardid set --in-place my.bin date 2024-02-29T12:00:00
    is "$(inside boardid get my.bin date)" 2024-02-29T12:00:00
    status 1 inside boardid set my.bin country xyz
    status 2 inside boardid set my.bin
    status 3 inside boardid list not-there.bin
    inside sh -c 'head -c 256 /dev/zero >blank.bin'
    status 4 inside boardid list blank.bin
}

# The list of an image makes the same image, and a board that was added to a room file comes out of it.
command_writes() {
    inside sh -c 'boardid list --json fboss.bin | boardid write --size 8192 copy.bin'
    cmp "$root/try/fboss.bin" "$root/try/copy.bin"
    inside boardid room add my.room 17 tiny.bin
    inside boardid room fetch my.room 17 fetched.bin
    cmp "$root/try/tiny.bin" "$root/try/fetched.bin"
}

# The command has the library in itself; nothing that it and the shared library need is missing.
linked() {
    inside ldd "$(above)/usr/bin/boardid" >"$room/ldd"
    cat "$room/ldd"
    grep -F libjansson.so "$room/ldd"
    fails grep -F -e 'not found' -e libboardid "$room/ldd"
    inside ldd "$(above)/usr/lib/$multiarch/libboardid.so.1" >"$room/ldd"
    cat "$room/ldd"
    fails grep -F 'not found' "$room/ldd"
    objdump -p "$root/usr/lib/$multiarch/libboardid.so.1" | grep -E 'SONAME +libboardid\.so\.1$'
}

# The shared library lets out the calls, and no other name.
exported() {
    nm -D --defined-only "$root/usr/lib/$multiarch/libboardid.so.1" | sed -n 's/^[0-9a-f]* T \([a-z_]*\)@@.*/\1/p' | sort >"$room/let-out"
    sed -n 's/^uint64_t \(boardid_[a-z_]*\)(.*/\1/p' "$root/usr/include/boardid.h" | sort >"$room/declared"
    is "$(wc -l <"$room/declared")" 16
    diff "$room/declared" "$room/let-out"
    is "$(nm -D --defined-only "$root/usr/lib/$multiarch/libboardid.so.1" | grep -cv ' A ')" 16
}

# shell LINE: a line of the shell inside.
shell() {
    inside sh -c "$1"
}

pkg_config() {
    is "$(inside pkg-config --modversion boardid)" "$version"
    inside pkg-config --atleast-version=4 boardid
    status 1 inside pkg-config --atleast-version=5 boardid
    printf '#include <boardid.h>\nint main(void) { return BOARDID_EDITION - 4; }\n' >"$root/try/edition.c"
    # shellcheck disable=SC2016 # expanded inside
    shell 'gcc $(pkg-config --cflags boardid) edition.c -o edition $(pkg-config --libs boardid) && ./edition'
}

# The program of boardid(3), as a reader sees it, on standard output; and the prototypes of that page, as declarations.
page_text() {
    gzip -dc "$root/usr/share/man/man3/boardid.3.gz" | mandoc -T ascii | col -bx
}

page_program() {
    page_text | sed -n '/^EXAMPLE/,/^[F-Z]/p' | sed -n '/#include/,/^           }$/p' | sed 's/^           //'
}

page_prototypes() {
    page_text | sed -n '/^ANSWERS/,/^REFUSALS/p' | awk '/^           [a-z].*boardid_[a-z_]*\(/ { sub(/^ */, "static inline "); on = 1 } on { print } /;$/ { on = 0 }'
}

page_compiles() {
    page_program >"$root/try/page.c"
    grep boardid_list_entries "$root/try/page.c"
    # shellcheck disable=SC2016 # expanded inside
    {
        shell 'gcc -std=c99 -Wall -Wextra -Wpedantic -Wconversion -Wshadow -Werror $(pkg-config --cflags boardid) page.c -o page-shared $(pkg-config --libs boardid)'
        shell 'gcc -std=c99 $(pkg-config --cflags boardid) page.c $(pkg-config --variable=libdir boardid)/libboardid.a -o page-archive'
        shell 'gcc -std=c99 -static $(pkg-config --static --cflags boardid) page.c -o page-static $(pkg-config --static --libs boardid)'
    }
    shell './page-shared <onie.bin' >"$room/page.out"
    is "$(wc -l <"$room/page.out")" 13
    is "$(sed -n 3p "$room/page.out")" 'Serial Number: 10 bytes at 55'
    shell './page-archive <onie.bin' | diff "$room/page.out" -
    shell './page-static <onie.bin' | diff "$room/page.out" -
    status 1 shell './page-shared <tiny.bin'
    inside ldd page-shared | grep -F libboardid.so.1
    inside ldd page-archive >"$room/ldd"
    fails grep -F libboardid "$room/ldd"
}

# The refusals of that page, as declarations that compile where the header has these names with these numbers.
page_refusals() {
    page_text | sed -n '/^REFUSALS/,/^EXAMPLE/p' | sed -nE 's/^ +([0-9]+)  ([A-Z_]+)  .*/typedef char refusal_\1[BOARDID_REFUSED_\2 == \1 ? 1 : -1];/p'
}

# Each prototype of the page is that of the header: as a second declaration it compiles. So it is with the 23 refusals. No call of the header is left out of the page.
page_is_true() {
    local name
    {
        echo '#include <boardid.h>'
        page_prototypes
        page_refusals
    } >"$root/try/prototypes.c"
    is "$(grep -c '^typedef char refusal_' "$root/try/prototypes.c")" 23
    # shellcheck disable=SC2016 # expanded inside
    shell 'gcc -std=c99 -Wall -Wextra -Werror $(pkg-config --cflags boardid) -fsyntax-only prototypes.c'
    page_text >"$room/page.txt"
    sed -n 's/^static inline .*[ *]\(boardid_[a-z]*_*[a-z_]*\)(.*/\1/p' "$root/usr/include/boardid.h" |
        grep -E '_(image|entries|at|step|entry|field|board|payload|name|code|key|text|append|strings|length)$' |
        grep -vE '^boardid_(word_at|signed_word_at|walk_entry|vendor_piece_at|end_length|field_frame_length)$' >"$room/calls"
    [ "$(wc -l <"$room/calls")" -ge 30 ]
    while IFS= read -r name; do
        grep -q "$name(" "$room/page.txt" || { echo "boardid(3) does not have $name" && return 1; }
    done <"$room/calls"
}

# A program that is compiled with the header of each edition runs with the shared library.
editions() {
    local edition
    for edition in 1 2 3 4; do
        shell "gcc -std=c99 -I\"\$(pkg-config --variable=edition_$edition boardid)\" \$(pkg-config --cflags boardid) -I'$(above)/usr/share/doc/libboardid-dev/examples' \
            '$(above)/usr/share/doc/libboardid-dev/examples/list.c' -o list-$edition \$(pkg-config --libs boardid)"
        inside ldd "./list-$edition" | grep -F libboardid.so.1
        inside "./list-$edition" vpd sku.vpd | grep -F "edition $edition, 1 entry"
    done
}

examples() {
    local name
    for name in list edit vendor backup room; do
        # shellcheck disable=SC2016 # expanded inside
        shell 'gcc -std=c99 $(pkg-config --cflags boardid) '"'$(above)/usr/share/doc/libboardid-dev/examples/$name.c' -o example-$name"' $(pkg-config --libs boardid)'
    done
    inside ./example-vendor amplifier.bin | grep -F DQ000MPW
}

python_module() {
    is "$(inside /usr/bin/python3 -c 'import boardid; print(boardid.__file__)')" "$(above)/usr/lib/python3/dist-packages/boardid/__init__.py"
    inside /usr/bin/python3 -m boardid onie.bin | grep -F LAB-000471
    inside /usr/bin/python3 -m boardid --json tiny.bin >"$room/tiny.json"
    is "$(/usr/bin/python3 -c 'import json, sys; print(json.load(sys.stdin)["format"])' <"$room/tiny.json")" tiny
    is "$(inside /usr/bin/python3 -c 'from importlib.metadata import version; print(version("boardid"))')" "$version"
}

man_pages() {
    local section
    for section in 1 3; do
        is "$(man -M "$root/usr/share/man" -w "$section" boardid)" "$root/usr/share/man/man$section/boardid.$section.gz"
        gzip -dc "$root/usr/share/man/man$section/boardid.$section.gz" >"$room/boardid.$section"
        mandoc -T lint -W error "$room/boardid.$section"
        lexgrog "$room/boardid.$section"
        MANWIDTH=80 man --warnings -l "$room/boardid.$section" >"$room/man.out" 2>"$room/man.errors"
        [ ! -s "$room/man.errors" ] || { cat "$room/man.errors" && return 1; }
        [ "$(wc -l <"$room/man.out")" -gt 200 ]
    done
}

# boardid(1) has every command and option that the command's help has.
page_has_help() {
    local word
    MANWIDTH=80 man -l "$root/usr/share/man/man1/boardid.1.gz" | col -bx >"$room/page1"
    {
        inside boardid help
        for word in list get set add remove check strings vendor write names; do inside boardid help "$word"; done
    } >"$room/help"
    grep -oE -e '--[a-z][a-z-]+' "$room/help" | sort -u >"$room/options"
    [ "$(wc -l <"$room/options")" -ge 12 ]
    while IFS= read -r word; do
        grep -qF -e "$word" "$room/page1" || { echo "boardid(1) does not have $word" && return 1; }
    done <"$room/options"
}

# complete_line LINE WORDS: what the completion offers for the last word of a line, one on a line; the words are those that readline makes of it. The command is the one in the root, and
# the samples are where it runs.
complete_line() {
    # shellcheck disable=SC2016 # expanded by that bash
    (cd "$root/try" && env -i PATH=/usr/bin:/bin LC_ALL=C.UTF-8 bash --norc --noprofile -c '
        . "$1"
        COMP_WORDBREAKS=$'"' \\t\\n\"'\\''><=;|&(:'"' COMP_LINE=$3 COMP_POINT=${#3}
        eval "COMP_WORDS=($4)"
        COMP_CWORD=$((${#COMP_WORDS[@]} - 1))
        compopt() { :; }
        _boardid "$2"
        printf "%s\n" "${COMPREPLY[@]}"' bash "$root/usr/share/bash-completion/completions/boardid" "$root/usr/bin/boardid" "$@")
}

completion() {
    complete_line 'boardid ' "boardid ''" | grep -x strings
    is "$(complete_line 'boardid room f' 'boardid room f')" fetch
    is "$(complete_line 'boardid list --format=t' 'boardid list --format = t')" tiny
    complete_line 'boardid get onie.bin --' 'boardid get onie.bin --' | grep -x -e --raw
    is "$(complete_line 'boardid get onie.bin Serial' 'boardid get onie.bin Serial')" 'Serial\ Number'
    is "$(complete_line 'boardid get onie.bin "Serial' 'boardid get onie.bin \"Serial')" 'Serial Number'
    is "$(complete_line 'boardid get onie.bin seri' 'boardid get onie.bin seri')" serial
    printf '\001\006my key\001x\000' >"$root/try/key.vpd"
    is "$(complete_line 'boardid get key.vpd my' 'boardid get key.vpd my')" 'my\ key'
    is "$(complete_line "boardid get key.vpd 'my" "boardid get key.vpd \\'my")" 'my key'
    is "$(complete_line 'boardid get onie.bin #12' 'boardid get onie.bin \#12')" '\#12'
    is "$(complete_line 'boardid get board.vpd UU' 'boardid get board.vpd UU')" UUID
    is "$(complete_line 'boardid room fetch room.bin 2' 'boardid room fetch room.bin 2')" 2001
    complete_line 'boardid add onie.bin ' "boardid add onie.bin ''" | grep -x extension
    is "$(complete_line 'boardid vendor amplifier.bin c-band-west-o' 'boardid vendor amplifier.bin c-band-west-o')" 'c-band-west-out='
}

# ---- All of it ------------------------------------------------------------------------------------

try 'a copy of the tree' copy_tree
try 'without an archive the build says so' no_archive
try 'nocheck leaves the tests out' nocheck
echo 'building the packages'
try 'dpkg-buildpackage' build
if ! compgen -G "$room/boardid_*.changes" >/dev/null; then
    finish
    exit
fi
try 'the build ran the tests' build_tested
try 'the archive is the one that was given' same_archive
try 'lintian' lintian_says_nothing
try 'names, versions and dependencies of the packages' right_packages
if [ -z "$folder" ]; then
    echo 'making a root with mmdebstrap'
    if ! make_root >"$room/mmdebstrap.log" 2>&1; then
        tail -n 5 "$room/mmdebstrap.log" | sed 's/^/    /'
        echo 'there is no fresh root: the packages are tried in a folder'
        rm -rf -- "$root"
        folder=yes
    fi
fi
if [ -n "$folder" ]; then
    make_folder
fi
try 'the packages are installed' install_packages
try 'boardid --version' command_version
try 'the command reads the samples' command_reads
try 'the command changes a file' command_changes
try 'the command writes an image, and a room file' command_writes
try 'ldd' linked
try 'the shared library lets out the sixteen calls' exported
try 'pkg-config' pkg_config
try 'the program of boardid(3), shared and static' page_compiles
try 'the prototypes of boardid(3) are those of the header' page_is_true
try 'programs of every edition with the shared library' editions
try 'the examples' examples
try 'the Python module' python_module
try 'manual pages' man_pages
try 'boardid(1) has the options of the help' page_has_help
try 'completion' completion
try 'purging leaves nothing' purge_packages
finish
