#!/usr/bin/env bash
# Applies an edit to the files of a folder:  tests/apply-edit.sh EDIT FOLDER
# An edit has lines `file: PATH`, below the folder, and pairs of lines `old: TEXT` and `new: TEXT`, in which \n is the end of a line. Each old text has to
# stand in its file just once when its turn comes; where one does not, nothing more is changed, a line says so and the exit status is 1.
set -euo pipefail
edit=$1 folder=$2
edited=$(mktemp)
trap 'rm -f "$edited"' EXIT
file='' old=''
while IFS= read -r line; do
    case $line in
    'file: '*) file=${line#file: } ;;
    'old: '*) old=$(printf '%b' "${line#old: }") ;;
    'new: '*)
        new=$(printf '%b' "${line#new: }")
        OLD=$old NEW=$new awk '
            { text = text $0 "\n" }
            END {
                old = ENVIRON["OLD"]; at = index(text, old)
                if (old == "" || !at || index(substr(text, at + length(old)), old)) exit 3
                printf "%s%s%s", substr(text, 1, at - 1), ENVIRON["NEW"], substr(text, at + length(old))
            }' "$folder/$file" >"$edited" || { echo "an old text is not in $file just once"; exit 1; }
        cp "$edited" "$folder/$file"
        ;;
    esac
done <"$edit"
