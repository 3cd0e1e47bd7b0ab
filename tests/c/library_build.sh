#!/usr/bin/env bash
# library/build with a kit that only pretends: when it is called, what is said, and what is left. Exit status 0 where all is as it should be.
set -euo pipefail
root=$(cd "$(dirname "$0")/../.." && pwd)
room=$(mktemp -d)
trap 'rm -rf "$room"' EXIT
mkdir -p "$room/tools" "$room/kit" "$room/tree/library"
tree=$room/tree archive=$room/tree/target/staticlib/libboardid.a stamp=$room/tree/target/staticlib/libboardid.stamp

# A path without the kit: only what the script calls.
for tool in awk cat cp cut dirname find grep head mktemp mv rm sed sh sha256sum sort touch mkdir xargs; do
    ln -s "$(command -v "$tool")" "$room/tools/$tool"
done

# The kit counts how often it is called, proves as many crates as $room/proves says, and makes an archive of what $room/makes has.
cat >"$room/kit/rt" <<END
#!/bin/sh
echo "\$* in \${PWD##*/tree/}" >>"$room/calls"
echo "rt: a word of the kit"
cat "$room/proves"
[ -e "$room/makes" ] || { echo "rt: it does not hold" >&2; exit 1; }
mkdir -p out/incremental
echo "of the kit" >out/incremental/kept
cat "$room/makes" >out/libboardid.a
END
chmod +x "$room/kit/rt"
cp "$root/library/build" "$tree/library"
: >"$room/proves"

# wrong WORD..: says what is wrong, and fails.
wrong() {
    echo "library/build: $*"
    [ ! -e "$room/said" ] || sed 's/^/    said: /' "$room/said"
    exit 1
}

# The sources, which are of five crates that boardid needs and one that it does not.
sources() {
    printf '# A note: boardid\ncrc:\nlayout: crc\nparts: layout\nother: parts\nlaws: layout crc\nboardid staticlib: parts laws records\nrecords: crc\n' >"$tree/crates.txt"
    for name in crc layout boardid; do
        mkdir -p "$tree/crates/$name/src" "$tree/crates/$name/specs" "$tree/crates/$name/proofs/deep" "$tree/crates/$name/must-fail"
        for part in src/lib.rt specs/Lib.antt proofs/Lib.antt proofs/deep/Proof.antt must-fail/wrong.edit; do
            echo "$name $part" >"$tree/crates/$name/$part"
        done
    done
}

# build STATUS CALLS [with]: runs the script, with the kit or without it, and expects its exit status and how often the kit was called.
build() {
    local path=$room/tools status=0 calls=0
    [ "${3-}" != with ] || path=$room/kit:$room/tools
    rm -f "$room/calls"
    (cd / && PATH="$path" "$tree/library/build") >"$room/said" 2>&1 || status=$?
    [ ! -e "$room/calls" ] || calls=$(grep -c . "$room/calls")
    [ "$status" -eq "$1" ] || wrong "the exit status is $status, not $1"
    [ "$calls" -eq "$2" ] || wrong "the kit is called $calls times, not $2"
}

# says WORDS, nothing: what was said.
says() {
    grep -q -F -e "$1" "$room/said" || wrong "does not say: $1"
}
nothing() {
    [ ! -s "$room/said" ] || wrong 'says something'
}

sources
# No archive and no kit.
build 1 0
says 'there is no archive target/staticlib/libboardid.a, and no kit'
says 'README.md'
says 'LIB=FILE'
[ ! -e "$archive" ] || wrong 'there is an archive'

# No archive: the kit is called once, and it is said how far it is.
echo one >"$room/makes"
printf '%s\n' 'only=0 proved=0' 'logic=proved of nothing' 'crate crc: modules loaded=1 checked=2' 'fn crc::one: proved' 'logic=proved functions=1' 'crate layout: modules loaded=1 checked=2' 'axioms std: none' \
    'logic=proved functions=0' 'crate laws: modules loaded=1 checked=2' 'logic=not-proved' 'logic=proved of nothing' 'rt: laws: proved things are said' >"$room/proves"
build 0 1 with
grep -q -x 'lib in crates/boardid' "$room/calls" || wrong 'the kit is called with other words, or elsewhere'
says 'all of its 6 crates take many minutes the first time'
says 'proved 1 of at most 6: crc'
says 'proved 2 of at most 6: layout'
! grep -q -e 'proved 3' -e 'a word of the kit' "$room/said" || wrong 'says too much'
[ "$(cat "$archive")" = one ] || wrong 'another archive'

# Nothing changed: nothing is done, with a kit and without one, also where a file that is no source changed, or a source has another time; nor where what the kit made is gone.
: >"$room/proves"
build 0 0 with
nothing
build 0 0
nothing
echo changed >>"$tree/crates/crc/must-fail/wrong.edit"
touch "$tree/crates/crc/src/lib.rt"
build 0 0 with
nothing
rm -r "$tree/crates/boardid/out"
build 0 0 with
nothing
build 0 0
nothing

# Each kind of source that changes, is new, is gone or has another name calls the kit; without one it is an error, and the archive stays.
echo two >"$room/makes"
change=0
while IFS= read -r command; do
    change=$((change + 1))
    (cd "$tree" && sh -c "$command") || wrong "$command"
    build 1 0
    says 'the sources have changed'
    says 'LIB=FILE'
    says 'README.md'
    build 1 0
    echo "$change" >"$room/makes"
    build 0 1 with
    [ "$(cat "$archive")" = "$change" ] || wrong "the archive is not made anew: $command"
    build 0 0 with
    nothing
done <<'END'
echo more >>crates/boardid/src/lib.rt
echo more >>crates/layout/specs/Lib.antt
echo more >>crates/crc/proofs/deep/Proof.antt
echo new: >>crates.txt
echo new >crates/crc/src/more.rt
rm crates/crc/src/more.rt
mv crates/crc/specs/Lib.antt crates/crc/specs/Other.antt
END

# The kit fails: its words are shown, the old archive stays, and the next time it is called again. What it made before is not taken for the new archive.
echo more >>"$tree/crates/boardid/src/lib.rt"
rm "$room/makes"
cp "$archive" "$room/before"
build 1 1 with
says 'rt: a word of the kit'
says 'rt: it does not hold'
says 'the kit could not make the library'
cmp -s "$archive" "$room/before" || wrong 'the old archive is gone'
build 1 1 with
echo three >"$room/makes"
build 0 1 with
build 0 0 with

# An archive without a stamp, newer than all sources: it is taken, and has a stamp then. So is one that was put in place of a stamped one.
rm "$stamp"
touch -d '1 hour ago' "$tree/crates.txt"
find "$tree/crates" -type f -exec touch -d '1 hour ago' {} +
touch "$tree/crates/boardid/out/incremental/kept"
build 0 0 with
nothing
[ -e "$stamp" ] || wrong 'no stamp'
touch "$tree/crates/crc/src/lib.rt"
build 0 0 with
nothing
sleep 0.02
echo other >"$archive"
build 0 0 with
nothing

# An archive without a stamp, older than a source: the kit decides; without one it is taken with a note, and gets no stamp.
rm "$stamp"
touch -d '2 hours ago' "$archive"
build 0 0
says 'note: target/staticlib/libboardid.a is taken as it is'
[ ! -e "$stamp" ] || wrong 'a stamp'
build 0 1 with
build 0 0 with
nothing
echo 'library/build: all is as it should be'
