#!/usr/bin/env bash
# The comparison under valgrind, each lent part a heap block of exactly its length:  host/memory.sh [INPUTS [SEED]]
# INPUTS is a number of each format, and of room files (default 1000). A byte read or written outside what was lent, or a jump on a
# value that was never set, fails the run. The folder of libboardid.a is BOARDID_LIB, else target/staticlib of the repository.
set -euo pipefail
[ -z "${BOARDID_LIB:-}" ] || { BOARDID_LIB=$(realpath "$BOARDID_LIB") && export BOARDID_LIB; }
cd "$(dirname "$0")/compare"
command -v valgrind >/dev/null || { echo "memory: needs valgrind"; exit 1; }
mkdir -p target
log=target/memory.log
cargo build --quiet --offline --locked --release
status=0
valgrind --quiet --error-exitcode=9 --redzone-size=256 \
    target/release/compare --exact --threads 1 --first 0 --inputs "${1:-1000}" --seed "${2:-1}" >"$log" 2>&1 || status=$?
if [ "$status" -ne 0 ]; then
    grep -m 1 -A 6 '^==' "$log" || true
    echo "memory: failed (status $status), log in host/compare/$log"
    exit 1
fi
echo "memory: $(tail -n 1 "$log"), valgrind has nothing to report"
