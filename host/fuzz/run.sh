#!/usr/bin/env bash
# Fuzzes libboardid.a for so many seconds (default 60):  host/fuzz/run.sh [SECONDS [CALL [WORDS FOR LIBFUZZER...]]]
# CALL is one of check, list, entry, value, string, step, write, edit, vendor_read, vendor_write, add, remove, room_add,
# room_replace, room_remove, room_fetch, or all (default), where each input names its own.
# Needs clang with libFuzzer and the address sanitizer (Debian: clang and libclang-rt-14-dev).
# The folder of libboardid.a is BOARDID_LIB, else target/staticlib of the repository. What is found is kept in
# host/fuzz/target/CALL: new inputs in found/, an input that stopped the program beside the log.
set -euo pipefail
[ -z "${BOARDID_LIB:-}" ] || { BOARDID_LIB=$(realpath "$BOARDID_LIB") && export BOARDID_LIB; }
cd "$(dirname "$0")"
lib=${BOARDID_LIB:-../../target/staticlib}/libboardid.a
[ -f "$lib" ] || { echo "fuzz: there is no $lib: run library/build"; exit 1; }
seconds=${1:-60} call=${2:-all}
shift $(($# < 2 ? $# : 2))

only=()
if [ "$call" != all ]; then
    number=0
    for name in check list entry value string step write edit vendor_read vendor_write add remove \
        room_add room_replace room_remove room_fetch; do
        [ "$name" != "$call" ] || only=("-DONLY=$number")
        number=$((number + 1))
    done
    [ ${#only[@]} -gt 0 ] || { echo "fuzz: there is no call $call"; exit 1; }
fi

room=target/$call
mkdir -p "$room/found"
clang -std=c11 -g -O1 -Wall -Wextra -Werror "${only[@]}" -fsanitize=fuzzer,address fuzz.c "$lib" -o "$room/fuzz"
status=0
(cd "$room" && ./fuzz -max_total_time="$seconds" -max_len=66000 -timeout=20 -print_final_stats=1 -artifact_prefix=./ "$@" \
    found ../../corpus >log 2>&1) || status=$?
runs=$(sed -n 's/^stat::number_of_executed_units: *//p' "$room/log")
if [ "$status" -ne 0 ]; then
    grep -aE '^fuzz.c:|ERROR: |Test unit written' "$room/log" || tail -5 "$room/log"
    echo "fuzz $call: failed after ${runs:-?} runs, log in host/fuzz/$room/log"
    exit 1
fi
echo "fuzz $call: $runs runs in $seconds s, nothing found"
