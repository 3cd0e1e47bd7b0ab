#!/usr/bin/env bash
# Wrong programs beyond those that the gate tries, docs/WRONG-PROGRAMS.md:  tests/wrong-programs.sh [--apply] [CRATE...]
# The edits stand in tests/wrong-programs/CRATE. They are tried in a copy of the crates, as `rt must-fail` tries those of crates/CRATE/must-fail.
# The last line says how many were refused; exit status 0 only where all were. With --apply it is only seen that each edit still applies.
set -euo pipefail
cd "$(dirname "$0")/.."
room=$(mktemp -d)
trap 'rm -rf "$room"' EXIT
only_apply=no
[ "${1:-}" != --apply ] || { only_apply=yes; shift; }
names=("$@")
[ $# -gt 0 ] || for folder in tests/wrong-programs/*/; do names+=("$(basename "$folder")"); done

# copy CRATE FOLDER: the files of a crate that a wrong program may change, and that the prover reads
copy() {
    local part
    mkdir -p "$2"
    for part in src specs proofs; do
        [ ! -d "crates/$1/$part" ] || cp -R "crates/$1/$part" "$2/$part"
    done
}

if [ "$only_apply" = yes ]; then
    applied=0 failed=0
    for name in "${names[@]}"; do
        for edit in "tests/wrong-programs/$name"/*.edit; do
            copy "$name" "$room/copy"
            if why=$(tests/apply-edit.sh "$edit" "$room/copy"); then
                applied=$((applied + 1))
            else
                echo "wrong program $name/$(basename "$edit" .edit): $why"
                failed=$((failed + 1))
            fi
            rm -rf "${room:?}/copy"
        done
    done
    echo "wrong programs: $applied apply, $failed do not"
    exit $((failed > 0))
fi

# What the kit keeps in out/ is not copied: in the copy it begins with what it kept of the same crates here.
cp crates.txt "$room"
for folder in crates/*/; do
    name=$(basename "$folder")
    copy "$name" "$room/crates/$name"
done
for name in "${names[@]}"; do
    cp -R "tests/wrong-programs/$name" "$room/crates/$name/must-fail"
done
status=0
(cd "$room" && rt must-fail "${names[@]}") >"$room/log" 2>&1 || status=$?
grep '^rt: must-fail' "$room/log" || tail -n 5 "$room/log"
echo "wrong programs: $(grep -c 'refused, as it must be' "$room/log") refused, $(grep '^rt: must-fail' "$room/log" | grep -vc 'refused, as it must be') not"
exit "$status"
