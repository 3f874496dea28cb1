#!/usr/bin/env bash
# Every test that the gate runs beside the proofs: the documents, the tests of calls, every example through the program, its proofs
# through the checker, little memory, and aspground. Each runs, also where one before it failed.
# Usage: tests/all.sh PROGRAM CHECKER     (the gate names the proved ones, `make test` those that were built without proofs)
cd "$(dirname "$0")/.." || exit 2
[ $# -eq 2 ] || { sed -n '4s/^# //p' tests/all.sh >&2; exit 64; }
failed=()
# step COMMAND..
step() {
    "$@" || failed+=("$1")
}
step tests/documents.sh
step tests/calls.sh
step tests/examples.sh "$1" "$2"
step tests/aspground.sh "$1"
step tests/checks.sh "$2"
step tests/memory.sh "$1" 128
step python3 tests/held.py "$1"
step python3 tests/recorded.py "$1" "$2"
step python3 tests/second.py "$1" "$2"
step python3 tests/json_output.py "$1"
step python3 tests/python.py "$1"
[ ${#failed[@]} -eq 0 ] || { echo "all: failed: ${failed[*]}"; exit 1; }
echo "all: passed"
