#!/usr/bin/env bash
# Runs the checker of proofs over programs with a right and with wrong proofs, and compares what it writes, what it says on
# standard error, and its status.
# Usage: tests/checks.sh [PROGRAM]     (the program is build/aspcheck where none is named)
cd "$(dirname "$0")/.." || exit 1
program=${1:-build/aspcheck}
passed=0
failed=0
notes=$(mktemp) || exit 1
ended=$(mktemp) || exit 1
trap 'rm -f "$notes" "$ended"' EXIT

# tell WHAT STATUS OUTPUT NOTE CODE GIVEN: counts a run by what was wanted and what came.
tell() {
    local note
    note=$(cat "$notes")
    if [ "$5" = "$2" ] && [ "$6" = "$3" ] && [ "$note" = "$4" ]; then
        passed=$((passed + 1))
    else
        failed=$((failed + 1))
        echo "failed: $1: status $5, wanted $2; wrote $6, wanted $3; said $note, wanted $4"
    fi
}

# Each line of checks.txt has the status, the arguments, what is written, what is said on standard error, and the input, with
# ~ between them and \n for a line feed.
while IFS='~' read -r status arguments wanted note text; do
    read -ra words <<< "$arguments"
    given=$(printf '%b' "$text" | "$program" "${words[@]}" 2> "$notes")
    code=$?
    tell "$arguments $text" "$status" "$(printf '%b' "$wanted")" "$(printf '%b' "$note")" "$code" "$given"
done < tests/checks.txt

# A read that fails, a write that fails, an input that is too long, and too little memory.
right='asp 1 0 0\n1 1 1 1 0 0\n0\nproof 3\nenum\nf 0\nf 1 1\nc 0\na 0\na 1 1\n0\n'
given=$("$program" < / 2> "$notes")
tell 'read of a folder' 66 '' 'aspcheck: read failed' $? "$given"
printf '%b' "$right" | "$program" > /dev/full 2> "$notes"
tell 'write to a full device' 74 '' 'aspcheck: write failed' "${PIPESTATUS[1]}" ''
"$program" --help > /dev/full 2> "$notes"
tell 'help to a full device' 74 '' 'aspcheck: write failed' $? ''
# where nobody reads any more the status alone tells it
{ sleep 1; printf '%b' "$right" | "$program" 2> "$notes"; echo "${PIPESTATUS[1]}" > "$ended"; } | true
tell 'closed pipe' 74 '' '' "$(cat "$ended")" ''
given=$(head -c 268435457 /dev/zero | "$program" 2> "$notes")
tell 'input of 2^28 and one bytes' 67 '' 'aspcheck: input too long' $? "$given"
given=$(ulimit -v 60000; head -c 100000000 /dev/zero | "$program" 2> "$notes")
tell '60 MB of memory' 33 '' 'aspcheck: out of memory' $? "$given"
# Where standard error fails, too, only the status tells.
: > "$notes"
given=$(printf 'nothing\nproof 3\n' | "$program" 2> /dev/full)
tell 'full standard error' 65 '' '' $? "$given"

# Proofs of a few random programs, right, changed and hostile.
python3 tests/proofs.py "$program" 4 || failed=$((failed + 1))

echo "checks: $passed passed, $failed failed"
[ "$failed" = 0 ]
