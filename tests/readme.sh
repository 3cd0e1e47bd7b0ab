#!/usr/bin/env bash
# Runs what README.md prints: every command of its console blocks, in a copy of the samples, the Python module and what make has built, held to the output that stands below it, and its C lines, compiled and run in a small program.
# It needs what `make` has built in target/c, and builds nothing of the library. A console block begins with ```console; a line `$ COMMAND` is run, and the lines up to the next one are what it prints, standard error
# among it. A block that begins with ```sh is only read: it has commands that prove, install or need the kit.
# The last line is 'readme: N passed, M failed'; the exit status is 0 only where all passed.
set -euo pipefail
cd "$(dirname "$0")/.."
root=$PWD
room=$(mktemp -d)
trap 'rm -rf "${room:?}"' EXIT
passed=0 failed=0

# judge NAME STATUS: counts a test, and shows what was printed where its status is not 0.
judge() {
    if [ "$2" -eq 0 ]; then
        passed=$((passed + 1))
    else
        failed=$((failed + 1))
        echo "FAILED: $1"
        sed 's/^/    /' "$room/shown"
    fi
}

# What the commands use of the tree, and what make has built. They may write there.
mkdir -p "$room/tree/target"
cp -r samples python "$room/tree"
cp -rL target/c "$room/tree/target/c"
mkdir "$room/bin"
ln -s "$room/tree/target/c/boardid" "$room/bin/boardid"
ln -s /usr/bin/python3 "$room/bin/python3"
export PATH="$room/bin:$PATH" PYTHONPATH="$room/tree/python" PYTHONDONTWRITEBYTECODE=1 BOARDID_LIBRARY="$room/tree/target/c/libboardid.so.1" LC_ALL=C

# Each command of the console blocks as a file with its words, beside one with what it is to print.
awk -v room="$room" '
    $0 == "```console" { inside = 1; next }
    /^```/ { inside = 0; next }
    inside && /^\$ / { n++; name = sprintf("%s/%03d", room, n); print substr($0, 3) >(name ".command"); printf "" >(name ".expected"); next }
    inside { print >(name ".expected") }
' README.md
for command in "$room"/*.command; do
    [ -e "$command" ] || { echo 'README.md has no console block'; exit 1; }
    status=0
    (cd "$room/tree" && bash "$command") >"$room/printed" 2>&1 || true
    diff "${command%.command}.expected" "$room/printed" >"$room/shown" || status=1
    judge "$(cat "$command")" "$status"
done

# The C lines: in a program that reads a file into image and length, which they use.
{
    printf '#include <stdio.h>\n'
    awk '$0 == "```c" { inside = 1; next } /^```/ { inside = 0 } inside && /^#include/' README.md
    printf 'int main(void)\n{\nstatic uint8_t image[BOARDID_IMAGE_MAX];\nsize_t length = fread(image, 1, sizeof image, stdin);\n'
    awk '$0 == "```c" { inside = 1; next } /^```/ { inside = 0 } inside && !/^#include/' README.md
    printf 'return 0;\n}\n'
} >"$room/lines.c"
status=0
{
    "${CC:-cc}" -std=c99 -Wall -Wextra -Werror -I"$root/include" -o "$room/lines" "$room/lines.c" "$root/target/c/libboardid.so.1" "-Wl,-rpath,$root/target/c" &&
        "$room/lines" <"$root/samples/onie.bin" >"$room/printed" && boardid get "$root/samples/onie.bin" serial | diff - "$room/printed"
} >"$room/shown" 2>&1 || status=1
judge 'the C lines' "$status"

echo "readme: $passed passed, $failed failed"
[ "$failed" -eq 0 ]
