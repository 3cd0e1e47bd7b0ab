#!/bin/sh
# Tests the script ./list with a stand-in for rt on the path and a stand-in for the program that it builds: nothing is proved.
# Statuses, symbolic links, what is said while it proves and where that fails, and the bytes that the program is given. Last line: 'list: N passed, M failed'.
set -eu
here=$(CDPATH='' cd -- "$(dirname -- "$0")/.." && pwd -P)
work=$(mktemp -d)
trap 'rm -rf "${work:?}"' EXIT
passed=0 failed=0

# A copy of what the script needs of the repository, in a folder with a blank in its name, and a list of crates that does not change with the repository's.
tree="$work/a tree"
mkdir -p "$tree/crates/list_image/out" "$work/bin" "$work/other" "$work/tmp"
cp "$here/list" "$tree/list"
cat >"$tree/crates.txt" <<'END'
# A line for each crate: its name, and the crates that it depends on.
base:
words: base   # of a comment
forms: words base
apart staticlib: forms words
list_image: forms base
END

# The stand-in for rt: keeps its words and its folder, and does what the test's plan says.
cat >"$work/bin/rt" <<'END'
#!/bin/sh
echo "$*" >"$FAKE/words"
pwd -P >"$FAKE/folder"
. "$FAKE/plan"
END
# The stand-in for the program: keeps its input, and answers as the test says.
cat >"$work/program" <<'END'
#!/bin/sh
head -c 65537 >"$FAKE/input"
cat "$FAKE/answer"
exit "$(cat "$FAKE/ends")"
END
chmod 755 "$work/bin/rt" "$work/program"
FAKE=$work TMPDIR=$work/tmp PATH=$work/bin:$PATH
export FAKE TMPDIR PATH

# What the plans say: a stand-in for the program at its place, rt's lines of a crate that it proved, of a program that has not changed, and of its run, in which the program reads nothing.
cat >"$work/lib" <<'END'
build() { cp "$FAKE/program" out/list_image; }
proves() { echo "rt: chose --jobs 2 for $1"; echo "fn $1::one: proved"; echo "crate $1: modules loaded=3 checked=1"; echo 'axioms std: none'; echo 'logic=proved functions=1 sum=0'; }
same() { echo 'rt: nothing has changed since the last proved build, by out/list_image.stamp, so nothing is checked now'; }
runs() { echo 'rt: running out/list_image; to give it other input, run that file yourself'; echo 'refused 16 at 0'; echo 'crate base: modules'; echo 'logic=proved'; }
END
plan() {
    { cat "$work/lib"; cat; } >"$work/plan"
}
unchanged() {
    plan <<'END'
same >&2; runs
END
    (cd "$tree/crates/list_image" && sh -c '. "$FAKE/lib"; build')
}
fresh() {
    plan <<'END'
echo 'only=0 proved=0' >&2; proves base >&2; echo 'a note, proved' >&2; proves words >&2; proves forms; proves list_image
build; runs
END
    rm -f "$tree/crates/list_image/out/"*
}
answer() {
    printf '%b' "$1" >"$work/answer"
    echo "${2:-0}" >"$work/ends"
}

# Runs a command, and keeps its status, output and what it says. One that does not end is ended, with status 124.
run() {
    rm -f "$work/words" "$work/folder" "$work/input"
    status=0
    timeout 20 "$@" >"$work/out" 2>"$work/err" </dev/null || status=$?
}

pass() { passed=$((passed + 1)); }
miss() {
    failed=$((failed + 1))
    echo "FAILED: $1"
    sed 's/^/    out: /' "$work/out"
    sed 's/^/    err: /' "$work/err"
}
# Whether a condition holds: test NAME CONDITION..
holds() {
    sentence=$1
    shift
    if "$@"; then pass; else miss "$sentence (status $status)"; fi
}
is_status() { [ "$status" -eq "$1" ]; }
is_out() { printf '%b' "$1" | cmp -s - "$work/out"; }
is_err() { printf '%b' "$1" | cmp -s - "$work/err"; }
is_silent() { [ ! -s "$work/err" ]; }
is_run() { [ -f "$work/words" ] && [ "$(cat "$work/words")" = run ] && [ "$(cat "$work/folder")" = "$tree/crates/list_image" ]; }
not() { if "$@"; then return 1; fi; }
has() { grep -qxF -- "$2" "$work/$1"; }
has_part() { grep -qF -- "$2" "$work/$1"; }
counts() { [ "$(grep -c -- "$2" "$work/$1")" -eq "$3" ]; }

printf 'image' >"$work/image"
two='format 2 edition 2 entries 1\n0 513 2 3 6 2\n'
said="$tree/list: proving and building the program first; it has 4 crates, and all of them take many minutes the first time"

# ---- usage: 2, nothing listed, nothing proved
answer "$two"
unchanged
usage() {
    what=$1
    shift
    run "$tree/list" "$@"
    holds "usage: $what: status 2" is_status 2
    holds "usage: $what: it says how it is used" has_part err 'usage: '
    holds "usage: $what: nothing is listed, and rt is not run" not test -s "$work/out" -o -e "$work/words"
}
usage 'no words'
usage 'two words' 2 2
usage 'four words' 2 2 "$work/image" "$work/image"
for word in 256 300 1000 01 00 -1 +1 a '' ' 1' '1 ' 1.0 0x1 '*'; do
    usage "format '$word'" "$word" 2 "$work/image"
    usage "edition '$word'" 2 "$word" "$work/image"
done
usage 'no such file' 2 2 "$work/none"
holds 'usage: no such file: it is named' has err "$tree/list: cannot read the file $work/none"
usage 'a folder' 2 2 "$work/other"

# ---- nothing to be proved: the listing, and not a word besides
run "$tree/list" 2 2 "$work/image"
holds 'unchanged: status 0' is_status 0
holds 'unchanged: the listing byte for byte' is_out "$two"
holds 'unchanged: nothing is said' is_silent
holds 'unchanged: rt run in the folder of the program' is_run

# ---- all to be proved: said before rt is run, a line for each crate, the listing alone on standard output
fresh
run "$tree/list" 2 2 "$work/image"
holds 'fresh: status 0' is_status 0
holds 'fresh: the listing byte for byte' is_out "$two"
holds 'fresh: what is said' is_err "$said\nproved 1 of at most 4: base\nproved 2 of at most 4: words\nproved 3 of at most 4: forms\nproved 4 of at most 4: list_image\n"
holds 'fresh: rt run in the folder of the program' is_run

# ---- rt finds a crate that has changed: said while it is proved, and crates that have not changed have no line
unchanged
plan <<'END'
echo 'rt: chose --jobs 2 for forms'; sleep 2; cp "$FAKE/err" "$FAKE/meanwhile"
proves forms; proves list_image; runs
END
run "$tree/list" 2 2 "$work/image"
holds 'changed: status 0' is_status 0
holds 'changed: said while it is proved' has meanwhile "$said"
holds 'changed: what is said' is_err "$said\nproved 1 of at most 4: forms\nproved 2 of at most 4: list_image\n"
holds 'changed: the listing' is_out "$two"

# ---- it is said before the first line also where rt begins with a crate's lines
unchanged
plan <<'END'
echo 'crate words: modules loaded=1 checked=0'; echo 'logic=proved functions=0'; echo 'crate forms: modules loaded=1 checked=0'; echo 'logic=proved functions=0'; runs
END
run "$tree/list" 2 2 "$work/image"
holds 'fast: what is said' is_err "$said\nproved 1 of at most 4: words\nproved 2 of at most 4: forms\n"

# ---- rt waits for another copy, or begins with its work: said before it is done
unchanged
plan <<'END'
echo 'rt: base: another copy of the repository is building this library; waiting for it, at most half an hour, to use its work' >&2; sleep 1; cp "$FAKE/err" "$FAKE/meanwhile"
runs
END
run "$tree/list" 2 2 "$work/image"
holds 'waiting: said meanwhile' has meanwhile "$said"
holds 'waiting: what is said' is_err "$said\n"

# ---- each line is said when it comes, not at the end
fresh
plan <<'END'
proves base; sleep 1; cp "$FAKE/err" "$FAKE/meanwhile"; build
END
run "$tree/list" 2 2 "$work/image"
holds 'in time: a line is there while the next crate is proved' has meanwhile 'proved 1 of at most 4: base'

# ---- other lines of rt are no progress
fresh
plan <<'END'
proves base; proves apart; echo 'crate words: modules loaded=1 checked=1'; echo 'logic=not-proved'; echo 'logic=proved functions=1'; echo 'rt: words proved'; echo 'fn words: proved'; echo 'crate words proved'; echo 'logic=proved functions=1'; build
END
run "$tree/list" 2 2 "$work/image"
holds 'other lines: one line of progress' counts err '^proved ' 1

# ---- the program was removed: rt builds it again
unchanged
rm "$tree/crates/list_image/out/list_image"
plan <<'END'
[ -f out/list_image ] && same || { build; proves list_image; }; runs
END
run "$tree/list" 2 2 "$work/image"
holds 'removed program: status 0' is_status 0
holds 'removed program: it is built again' is_err "$said\nproved 1 of at most 4: list_image\n"

# ---- proving fails: 3, all that rt said, and a sentence
for ends in 1 2 3; do
    fresh
    plan <<END
proves base; printf '%s\\n' 'Proof.antt:7:5: error: \\no % such'; echo 'on the other side' >&2; printf 'logic=not-proved'; build; exit $ends
END
    run "$tree/list" 2 2 "$work/image"
    holds "rt ends with $ends: status 3" is_status 3
    holds "rt ends with $ends: nothing is listed" is_out ''
    holds "rt ends with $ends: the program is not run" not test -e "$work/input"
    holds "rt ends with $ends: what it said" has err 'Proof.antt:7:5: error: \no % such'
    holds "rt ends with $ends: what it said on standard error" has err 'on the other side'
    holds "rt ends with $ends: its last line, which is cut short" has_part err 'logic=not-proved'
    holds "rt ends with $ends: the sentence" has_part err "$tree/list: the program was not proved and built: rt ended with status $ends; what it said stands above"
done
fresh
plan <<'END'
proves list_image; runs
END
run "$tree/list" 2 2 "$work/image"
holds 'rt leaves no program: status 3' is_status 3
holds 'rt leaves no program: it is said' has err "$tree/list: rt ended with status 0 and left no program at $tree/crates/list_image/out/list_image"

# ---- no kit on the path: 3, also where a program is there
unchanged
mkdir "$work/tools"
for tool in sh awk cat dirname head mktemp readlink rm tr wc; do ln -s "$(command -v "$tool")" "$work/tools/$tool"; done
run env PATH="$work/tools" "$tree/list" 2 2 "$work/image"
holds 'no kit: status 3' is_status 3
holds 'no kit: it is said' is_err "$tree/list: rt, the command of the Rattle kit, is not on the path; without it the program cannot be proved\n"
holds 'no kit: nothing is listed' is_out ''
ln -s "$work/bin/rt" "$work/tools/rt"
run env PATH="$work/tools" "$tree/list" 2 2 "$work/image"
holds 'only what a bare system has beside the kit' is_out "$two"

# ---- a refusal: 1, and the line as it is
unchanged
for line in 'refused 7 at 0' 'refused 16 at 0' 'refused 10 at 65535'; do
    answer "$line\n"
    run "$tree/list" 2 2 "$work/image"
    holds "$line: status 1" is_status 1
    holds "$line: as the program wrote it" is_out "$line\n"
    holds "$line: nothing else is said" is_silent
done
answer "$two" 5
run "$tree/list" 2 2 "$work/image"
holds 'a program that ends with 5: its status' is_status 5
holds 'a program that ends with 5: what it wrote' is_out "$two"
answer 'format 2' 1
run "$tree/list" 2 2 "$work/image"
holds 'a program that could not read or write: status 2' is_status 2
answer "$two"
if [ -w /dev/full ]; then
    run sh -c 'exec "$@" >/dev/full' sh "$tree/list" 2 2 "$work/image"
    holds 'an output that is full: status 2' is_status 2
fi
answer ''
run "$tree/list" 2 2 "$work/image"
holds 'a program that writes nothing: status 0' is_status 0

# ---- a listing of many lines, and bytes that a shell would lose
awk 'BEGIN { print "format 1 edition 2 entries 32762"; for (i = 0; i < 32762; i++) print i, 0, i, 0, i, 0 }' >"$work/answer"
printf 'end\0\377\n\n\nno newline' >>"$work/answer"
run "$tree/list" 1 2 "$work/image"
holds 'a long listing byte for byte' cmp -s "$work/answer" "$work/out"

# ---- symbolic links
answer "$two"
linked() {
    what=$1
    shift
    run "$@"
    holds "$what: status 0" is_status 0
    holds "$what: the listing" is_out "$two"
    holds "$what: nothing is said" is_silent
    holds "$what: rt runs in the tree" is_run
}
mkdir -p "$work/links/deep" "$work/path"
ln -s "$tree/list" "$work/links/absolute"
ln -s '../a tree/list' "$work/links/relative"
ln -s '../relative' "$work/links/deep/twice"
ln -s '../links/deep/twice' "$work/path/boards"
ln -s 'a tree' "$work/folder-link"
linked 'by its path' "$tree/list" 2 2 "$work/image"
linked 'an absolute link' "$work/links/absolute" 2 2 "$work/image"
linked 'a relative link' "$work/links/relative" 2 2 "$work/image"
linked 'a link to a link' "$work/links/deep/twice" 2 2 "$work/image"
linked 'through a linked folder' "$work/folder-link/list" 2 2 "$work/image"
cd "$work/links/deep"
linked 'a link in this folder' ./twice 2 2 ../../image
linked 'a link found on the path' env PATH="$work/path:$PATH" boards 2 2 ../../image
linked 'a link found on a relative path' env PATH="../../path:$PATH" boards 2 2 ../../image
linked 'a link, run by sh' sh twice 2 2 ../../image
cd "$tree"
linked 'in its own folder' ./list 2 2 ../image
linked 'in its own folder, run by sh' sh list 2 2 ../image
cd "$work"
linked 'with a CDPATH' env CDPATH="$work" 'a tree/list' 2 2 image
cp "$tree/list" "$work/other/list"
run "$work/other/list" 2 2 "$work/image"
holds 'a copy elsewhere: status 3' is_status 3
holds 'a copy elsewhere: it is said' has_part err "there is no crates.txt in $work/other"

# ---- what the program is given: the format's byte, the edition's byte, the file's bytes
awk 'BEGIN { for (i = 0; i < 256; i++) printf "%03o\n", i }' >"$work/octal"
: >"$work/bytes"
# shellcheck disable=SC2059
while read -r byte; do printf "\\$byte" >>"$work/bytes"; done <"$work/octal"
holds 'the test has every byte' test "$(wc -c <"$work/bytes")" -eq 256
cat "$work/bytes" "$work/bytes" "$work/image" >"$work/all"
: >"$work/empty"
given() { # FORMAT EDITION FILE
    run "$tree/list" "$1" "$2" "$3"
    # shellcheck disable=SC2059
    { printf "\\$(printf '%03o' "$1")\\$(printf '%03o' "$2")"; cat <"$3"; } >"$work/expected"
    holds "format $1 edition $2 of $3: the program's input" cmp -s "$work/expected" "$work/input"
}
for pair in '0 0' '1 1' '2 2' '4 3' '7 8' '8 7' '9 10' '10 13' '26 27' '37 92' '63 64' '99 100' '127 128' '199 200' '249 250' '255 255'; do
    given "${pair% *}" "${pair#* }" "$work/all"
done
given 3 2 "$work/empty"
cp "$work/all" "$work/other/-n"
cp "$work/all" "$work/other/a name \$HOME * \\ with"
cd "$work/other"
given 3 2 -n
given 3 2 "a name \$HOME * \\ with"
cd "$work"
run sh -c '"$1" 2 2 /dev/stdin <"$2"' sh "$tree/list" "$work/all"
{ printf '\002\002'; cat "$work/all"; } >"$work/expected"
holds 'a file on standard input: the input of the program' cmp -s "$work/expected" "$work/input"

# A file that is longer than the program takes, with the signal of a closed pipe and without it.
awk 'BEGIN { for (i = 0; i < 20000; i++) print "0123456789012" }' >"$work/long"
answer 'refused 2 at 0\n'
run "$tree/list" 2 2 "$work/long"
holds 'a long file: status 1' is_status 1
holds 'a long file: the refusal' is_out 'refused 2 at 0\n'
holds 'a long file: nothing else is said' is_silent
run sh -c 'trap "" PIPE; exec "$@"' sh "$tree/list" 2 2 "$work/long"
holds 'a long file without the signal: status 1' is_status 1
holds 'a long file without the signal: the refusal' is_out 'refused 2 at 0\n'
# A file whose bytes cannot be read, though it looks readable: no listing of its first bytes.
answer "$two"
if [ -r "/proc/$$/mem" ]; then
    run "$tree/list" 2 2 "/proc/$$/mem"
    holds 'a file that fails while it is read: status 2' is_status 2
    holds 'a file that fails while it is read: nothing is listed' is_out ''
    holds 'a file that fails while it is read: it is named' has err "$tree/list: cannot read the file /proc/$$/mem"
fi

# ---- the repository's own crates: those that the program needs, each once, and no other
cp "$here/crates.txt" "$tree/crates.txt"
plan <<'END'
sed -n 's/^\([a-z_0-9]*\)\( staticlib\)*:.*/\1/p' ../../crates.txt >"$FAKE/names"; while read -r name; do proves "$name"; done <"$FAKE/names"; build
END
run "$tree/list" 2 2 "$work/image"
holds "the repository's crates: boardid is among them" grep -qx boardid "$work/names"
lines=$(grep -c '^proved ' "$work/err") || :
last=$(sed -n 's/^proved \([0-9]* of at most [0-9]*\): .*/\1/p' "$work/err" | tail -n 1)
holds "the repository's crates: $lines of $lines at the end" test "$last" = "$lines of at most $lines"
for name in crc layout frames accept reader list_image; do
    holds "the repository's crates: $name" counts err "^proved [0-9]* of at most $lines: $name\$" 1
done
for name in writer promises boardid cases; do
    holds "the repository's crates: not $name" counts err ": $name\$" 0
done

# ---- an rt that ends at once: what waits for it ends too, each time
printf 'list_image:\n' >"$tree/crates.txt"
unchanged
plan <<'END'
exit 0
END
ended=0
while [ "$ended" -lt 60 ]; do
    run "$tree/list" 2 2 "$work/image"
    is_status 0 || break
    ended=$((ended + 1))
done
holds "60 runs of an rt that ends at once: $ended ended by themselves" test "$ended" -eq 60

# ---- nothing is left behind, also where it is ended
unchanged
plan <<'END'
sleep 1
END
"$tree/list" 2 2 "$work/image" >"$work/out" 2>"$work/err" &
sleep 0.3
status=0
kill -TERM $!
wait $! || status=$?
holds 'ended by a signal: status 143' is_status 143
holds 'nothing is left in the temporary folder' test -z "$(ls -A "$work/tmp")"

echo "list: $passed passed, $failed failed"
[ "$failed" -eq 0 ]
