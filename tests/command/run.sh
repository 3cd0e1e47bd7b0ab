#!/usr/bin/env bash
# The tests of the command: run.sh [--long] [WORDS FOR PYTEST]. The command is $BOARDID, else target/c/boardid. Without --long only the quick part runs.
# The last line is pytest's. Exit status 0 only where all passed and at least one ran; what was skipped is printed with its reason.
set -eu
folder=$(cd "$(dirname "$0")" && pwd)
if [ -n "${BOARDID:-}" ]; then
    BOARDID=$(realpath "$BOARDID")
    export BOARDID
fi
if [ "${1:-}" = --long ]; then
    shift
    marks='long or not long'
else
    marks='not long'
fi
cd "$folder"
PYTHONDONTWRITEBYTECODE=1 exec /usr/bin/python3 -m pytest -q -rs -p no:cacheprovider --rootdir="$folder" -m "$marks" "$@"
