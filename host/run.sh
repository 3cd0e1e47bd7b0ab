#!/usr/bin/env bash
# The tests from outside, as the gate runs them: the second reader's own tests, then the comparison of libboardid.a with it.
# Prints one line for each; exit status 0 only where both passed. The folder of libboardid.a is BOARDID_LIB, else
# target/staticlib of the repository, where `make` puts it.
set -uo pipefail
[ -z "${BOARDID_LIB:-}" ] || { BOARDID_LIB=$(realpath "$BOARDID_LIB") && export BOARDID_LIB; }
cd "$(dirname "$0")"
failed=0

# Runs a command in a folder and prints its summary. Where it fails, what it said last comes before, cut.
run() {
    local folder=$1 log=$1/target/run.log
    shift
    mkdir -p "$folder/target"
    if (cd "$folder" && "$@") >"$log" 2>&1; then
        echo "$folder: $(summary "$log")"
    else
        failed=1
        sed '/^first difference/,$!d' "$log" | grep . | cut -c 1-300 || tail -n 12 "$log" | cut -c 1-300
        echo "$folder: FAILED, log in host/$log"
    fi
}

# What the line that says how it went says.
summary() {
    sed -nE 's/^(test result|compare): //p' "$1" | head -n 1
}

compare() {
    cargo build --quiet --offline --locked --release && target/release/compare
}

run second cargo test --quiet --offline --locked --release
run compare compare
exit "$failed"
