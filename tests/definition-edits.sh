#!/usr/bin/env bash
# Wrong definitions, and a promise that is false of each of them:  tests/definition-edits.sh [NAME...], all of them where none is named.
# NAME.edit of tests/definition-edits makes one wrong in a copy, in crates/layout/specs or crates/blocks/specs, or in crates/rooms/specs, where it must still
# be a definition. NAME.proof beside it proves `pub false : STATEMENT → ⊥` over the edited definitions, STATEMENT being one that crates/promises proves of the
# right ones, or crates/room_promises of those of rooms: so it is a promise that refuses the edit, and not a proof that no longer fits. It may use
# Instances.proof, or RoomInstances.proof; the copy has the definitions and the statements, and no other proof and no worked case. RT_JOBS edits are tried at a
# time, as many as there are processors where it is not set.
set -euo pipefail
cd "$(dirname "$0")/.."
room=$(mktemp -d)
trap 'rm -rf "$room"' EXIT
edits=tests/definition-edits

# base FOLDER CRATE...: these crates in a folder, beside those that are there, without their proofs but for crc's; all is proved as it stands
base() {
    local folder=$1 crate part
    shift
    mkdir -p "$room/$folder/crates"
    for crate in "$@"; do
        mkdir "$room/$folder/crates/$crate"
        for part in src specs; do
            [ ! -d "crates/$crate/$part" ] || cp -R "crates/$crate/$part" "$room/$folder/crates/$crate/$part"
        done
        [ "$crate" != crc ] || cp -R crates/crc/proofs "$room/$folder/crates/crc/proofs"
        grep -E "^$crate( [^:]*)?:" crates.txt >>"$room/$folder/crates.txt"
    done
    (cd "$room/$folder" && rt all check >"$room/$folder.log" 2>&1) ||
        { tail -n 20 "$room/$folder.log"; echo "definition edits: without an edit, not all of $* is proved"; exit 1; }
}

# verdict LABEL KIND TEXT
verdict() {
    echo "$2" >"$room/$1.verdict"
    echo "definition edit $1: $3"
}

# whether an edit is one of rooms
ofRooms() { grep -q '^file: crates/rooms/' "$1"; }

# statement PROOF CRATE: the statement that a refutation says is false: it must be one that the crate proves, and the crate's own
statement() {
    local said
    said=$(sed -n 's/^pub false : \([A-Z][A-Za-z]*\) → ⊥$/\1/p' "$1")
    [ -n "$said" ] || { echo "it has no line \`pub false : STATEMENT → ⊥\`"; return 1; }
    grep -qE "^pub [a-z0-9_-]+ : $said\$" crates/"$2"/proofs/*.antt || { echo "$said is no statement that $2 proves"; return 1; }
    grep -qE "^use Rattle\.$2\.specs\.[A-Za-z]+\.\{(.*, )?$said(, .*)?\}\$" "$1" || { echo "$said is not that of $2"; return 1; }
    echo "$said"
}

# accepted LOG CRATE: the definitions were accepted, by this log of a check of the crate: rt has a line 'crate NAME: ..' of a crate that it looked at, and looks at none above one that is not proved
accepted() { grep -q "^crate $2: " "$1"; }

# tries one edit
try() {
    local edit=$1 label copy bad said from=definitions crate=promises instances=Instances edited='layout|blocks'
    label=$(basename "$edit" .edit)
    copy=$room/copy-$label
    ! ofRooms "$edit" || { from=rooms crate=room_promises instances=RoomInstances edited=rooms; }
    if grep -E '^file: ' "$edit" | grep -qvE "^file: crates/($edited)/specs/"; then
        verdict "$label" failed 'BAD EDIT: it edits more than the definitions'
        return
    fi
    [ -f "$edits/$label.proof" ] || { verdict "$label" failed 'BAD EDIT: it has no refutation'; return; }
    said=$(statement "$edits/$label.proof" "$crate") || { verdict "$label" failed "BAD REFUTATION: $said"; return; }
    cp -R "$room/$from" "$copy"
    mkdir "$copy/crates/$crate/proofs"
    cp "$edits/$instances.proof" "$copy/crates/$crate/proofs/$instances.antt"
    cp "$edits/$label.proof" "$copy/crates/$crate/proofs/False.antt"
    printf 'pub mod %s\npub mod False\n' "$instances" >"$copy/crates/$crate/proofs/Lib.antt"
    bad=$(tests/apply-edit.sh "$edit" "$copy") || bad=${bad:-'it does not apply'}
    if [ -n "$bad" ]; then
        verdict "$label" failed "BAD EDIT: $bad"
    elif (cd "$copy/crates/$crate" && rt check --jobs 1 >"$room/$label.log" 2>&1); then
        verdict "$label" shown "$said is false of it"
    elif ! accepted "$room/$label.log" "$crate"; then
        verdict "$label" failed 'BAD EDIT: the definitions are no longer accepted'
    else
        verdict "$label" failed "$said is NOT SHOWN to be false of it: $(grep -m 1 -oE '(specs|proofs|src)/[^ ]*: error.*' "$room/$label.log" | cut -c 1-300)"
    fi
    rm -rf "$room/copy-$label"
}

all='' rooms='' stray=''
if [ $# -eq 0 ]; then all=$(echo "$edits"/*.edit); else for label in "$@"; do all="$all $edits/$label.edit"; done; fi
for edit in $all; do
    [ -f "$edit" ] || { echo "definition edits: there is no $edit"; exit 1; }
    ! ofRooms "$edit" || rooms=some
done
for module in "$edits"/*.proof; do
    case $module in */Instances.proof | */RoomInstances.proof) ;; *) [ -f "${module%.proof}.edit" ] || stray="$stray $module" ;; esac
done
[ -z "$stray" ] || { echo "definition edits: no edit for$stray"; exit 1; }
base definitions crc layout blocks laws promises
[ -z "$rooms" ] || { cp -R "$room/definitions" "$room/rooms" && base rooms rooms room_promises; }

for edit in $all; do
    while [ "$(jobs -rp | wc -l)" -ge "${RT_JOBS:-$(nproc)}" ]; do wait -n || true; done
    try "$edit" &
done
wait
failed=''
for edit in $all; do
    label=$(basename "$edit" .edit)
    [ "$(cat "$room/$label.verdict" 2>/dev/null)" = shown ] || failed="$failed $label"
done
echo "definition edits: a promise is false of $(cat "$room"/*.verdict | grep -cx shown || true)${failed:+, failed:$failed}"
[ -z "$failed" ]
