#!/usr/bin/env bash
# Runs every example, every row, every refusal, the commands of the README and the manual, the programs that need a good search,
# those whose progress is told, and random programs through the built program, and compares bytes and status.
# Usage: tests/examples.sh [PROGRAM [CHECKER]]     (the program is build/aspenum where none is named; without a checker no
# command that calls it is run)
cd "$(dirname "$0")/.." || exit 1
program=${1:-build/aspenum}
checker=${2:-}
passed=0
failed=0

# check NAME WANTED_STATUS WANTED_FILE STATUS GIVEN_FILE
check() {
    if [ "$2" = "$4" ] && cmp -s "$3" "$5"; then
        passed=$((passed + 1))
    else
        failed=$((failed + 1))
        echo "failed: $1: status $4, wanted $2"
        diff "$3" "$5" | head -n 5
    fi
}

given=$(mktemp)
notes=$(mktemp)
wanted=$(mktemp)
trap 'rm -f "$given" "$notes" "$wanted"' EXIT

# An example's words, if it has any, stand in its file .words. The ending says the format; a series is aspif with queries.
for text in examples/*.aspif examples/*.smodels examples/*.series; do
    expected=${text%.*}.out
    words=$(cat "${text%.*}.words" 2> /dev/null)
    [ "${text##*.}" != smodels ] || words="--format smodels $words"
    status=30
    grep -q UNSATISFIABLE "$expected" && ! grep -qx SATISFIABLE "$expected" && status=20
    grep -q 'LIMIT REACHED' "$expected" && status=11
    # the last line of JSON tells how all of it ended
    case $words in *json*) tail -n 1 "$expected" | grep -q '"Result":"UNSATISFIABLE"' && status=20 || status=30 ;; esac
    # shellcheck disable=SC2086
    "$program" $words < "$text" > "$given" 2> "$notes"
    check "$text" "$status" "$expected" "$?" "$given"
done

# Each refusal writes one line to standard error, nothing to standard output, and ends with its status. Faulty words are
# followed by the lines that tell how the program is called. A line of refusals.txt has the status, the first line, the
# words and the text, with ~ between them.
usage=$("$program" --help | sed -n '/^usage: /,/^       aspenum/{/^       aspenum/!p}')
while IFS='~' read -r status note words text; do
    printf '%s\n' "$note" > "$wanted"
    [ "$status" != 64 ] || printf '%s\n' "$usage" >> "$wanted"
    # the words are split at blanks, the text's \n are line feeds
    # shellcheck disable=SC2086
    printf '%b' "$text" | "$program" $words > "$given" 2> "$notes"
    check "refusal: $note" "$status" "$wanted" "${PIPESTATUS[1]}" "$notes"
    : > "$wanted"
    check "nothing written: $note" 0 "$wanted" 0 "$given"
done < tests/refusals.txt

# Words that no line of a file can have: an empty one, one with a blank, and one that isn't UTF-8.
printf 'aspenum: unexpected argument  (the program is read from standard input; write: aspenum < FILE)\n%s\n' "$usage" > "$wanted"
"$program" '' < examples/two_rules.aspif > "$given" 2> "$notes"
check "an empty word" 64 "$wanted" "$?" "$notes"
printf 'aspenum: --mode takes auto, enum, opt, brave or cautious, not all of them\n%s\n' "$usage" > "$wanted"
"$program" --mode 'all of them' < examples/two_rules.aspif > "$given" 2> "$notes"
check "a blank in a word" 64 "$wanted" "$?" "$notes"
printf 'aspenum: an argument is not UTF-8\n%s\n' "$usage" > "$wanted"
"$program" "$(printf '\377')" < examples/two_rules.aspif > "$given" 2> "$notes"
check "a word that isn't UTF-8" 64 "$wanted" "$?" "$notes"

# Worked texts. A line of rows.txt has the status, the words, the text and what is written, with ~ between them.
while IFS='~' read -r status words text output; do
    printf '%b' "$output" > "$wanted"
    # shellcheck disable=SC2086
    printf '%b' "$text" | "$program" $words > "$given" 2> "$notes"
    check "row: $words $text" "$status" "$wanted" "${PIPESTATUS[1]}" "$given"
done < tests/rows.txt

# What standard error gets of a run that ends well: a line for each option that had no effect. A line of notes.txt has the
# status, these lines, the words and the text, with ~ between them.
while IFS='~' read -r status note words text; do
    if [ -n "$note" ]; then printf '%b\n' "$note"; fi > "$wanted"
    # shellcheck disable=SC2086
    printf '%b' "$text" | "$program" $words > "$given" 2> "$notes"
    check "notes: $words $text" "$status" "$wanted" "${PIPESTATUS[1]}" "$notes"
done < tests/notes.txt

# Output that can't be written, and input that can't be read.
echo 'aspenum: write failed' > "$wanted"
if [ -w /dev/full ]; then
    "$program" < examples/two_rules.aspif > /dev/full 2> "$notes"
    check "a full device" 74 "$wanted" "$?" "$notes"
fi
"$program" < examples/two_rules.aspif >&- 2> "$notes"
check "no output" 74 "$wanted" "$?" "$notes"
# where nobody reads any more the status alone tells it
: > "$wanted"
{ sleep 1; "$program" < examples/two_rules.aspif 2> "$notes"; echo $? > "$given"; } | true
check "a closed pipe" 74 "$wanted" "$(cat "$given")" "$notes"
echo 'aspenum: read failed' > "$wanted"
"$program" < examples 2> "$notes" > "$given"
check "a folder as input" 66 "$wanted" "$?" "$notes"
: > "$wanted"
if [ -w /dev/full ]; then
    printf 'asp 1 0 0\n1 0 1\n0\n' | "$program" > "$given" 2> /dev/full
    check "notes that can't be written" 65 "$wanted" "${PIPESTATUS[1]}" "$given"
fi

# Texts of the greatest length, 268,435,456 bytes, in which each byte is a line or all of them are one, and longer ones.
most=268435456
for byte in '\n' ' '; do
    line=2
    [ "$byte" = ' ' ] || line=$((most + 1))
    echo "aspenum: line $line: no program: the input is empty" > "$wanted"
    head -c $most /dev/zero | tr '\0' "$byte" | "$program" > "$given" 2> "$notes"
    check "the greatest length of '$byte'" 65 "$wanted" "${PIPESTATUS[2]}" "$notes"
    echo 'aspenum: input too long' > "$wanted"
    head -c $((most + 1)) /dev/zero | tr '\0' "$byte" | "$program" > "$given" 2> "$notes"
    check "a byte more of '$byte'" 67 "$wanted" "${PIPESTATUS[2]}" "$notes"
done

# A million different atoms, far apart, and one more.
million() {
    echo 'asp 1 0 0'
    seq 2000 2000 2000000000 | sed 's/.*/1 0 1 & 0 0/'
    echo '6 2 -4000 2000000000'
}
echo 'aspenum: line 1000003: end of program missing' > "$wanted"
million | "$program" > "$given" 2> "$notes"
check "a million atoms" 65 "$wanted" "${PIPESTATUS[1]}" "$notes"
echo 'aspenum: line 1000003: more than 1,000,000 different atoms' > "$wanted"
{ million; echo '5 3 0'; } | "$program" > "$given" 2> "$notes"
check "a million atoms and one" 65 "$wanted" "${PIPESTATUS[1]}" "$notes"

# A thousand minimize statements of a smodels text, each a priority of its own, and one more.
minimizing() {
    echo '3 1 2 0 0'
    yes '6 0 1 0 2 1' | head -n "$1"
    printf '%s\n' 0 0 B+ 0 B- 0 1
}
echo "Optimization: $(yes 0 | head -n 1000 | paste -s -d ' ')" > "$wanted"
minimizing 1000 | "$program" --format smodels 2> "$notes" | grep '^Opt' > "$given"
check "a thousand priorities" 30 "$wanted" "${PIPESTATUS[1]}" "$given"
echo 'aspenum: line 1002: more than 1,000 different priorities' > "$wanted"
minimizing 1001 | "$program" --format smodels > "$given" 2> "$notes"
check "a thousand priorities and one" 65 "$wanted" "${PIPESTATUS[1]}" "$notes"

# A hundred thousand constraints of twelve literals, as many counts of three, and as many costs: no table has a lower limit.
ring() {
    python3 -c 'n = 100000
lines = ["asp 1 0 0", " ".join(map(str, ["1 1", n, *range(1, n + 1), "0 0"]))]
for it in range(n):
    near = [str(-(1 + (it + step) % n)) for step in range(12)]
    lines.append("1 0 0 0 12 " + " ".join(near))
    lines.append("1 0 0 1 2 3 " + " 1 ".join(near[:3]) + " 1")
lines.append(f"2 0 {n} " + " ".join(f"{it} -1" for it in range(1, n + 1)))
print("\n".join([*lines, "0"]))'
}
printf 'Optimization: -100000\nOPTIMUM FOUND\nModels: 1\n' > "$wanted"
ring | "$program" --quiet > "$given" 2> "$notes"
check "a hundred thousand constraints, counts and costs" 30 "$wanted" "${PIPESTATUS[1]}" "$given"

# As many parts as are wanted, where there are as many answers.
echo 3000 > "$wanted"
printf 'asp 1 0 0\n1 1 12 %s 0 0\n0\n' "$(seq -s ' ' 12)" | "$program" --split 3000 2> "$notes" | wc -l > "$given"
check "three thousand parts" 0 "$wanted" "${PIPESTATUS[1]}" "$given"

# The counts of a run.
printf 'Conflicts: 0\nLeaves: 1\nLog: 0\nDecisions: 1\nPropagated: 3\nRestarts: 0\nKept: 0\nDropped: 0\nAtoms: 2\nBodies: 2\nLoops: 0\n' > "$wanted"
"$program" --stats < examples/two_rules.aspif > "$given" 2> "$notes"
check "counts" 30 "$wanted" "$?" "$notes"
worker='Worker N: conflicts N, decisions N, propagated N, restarts N, answers N, kept N, dropped N'
printf '%s\n' 'Conflicts: N' 'Leaves: N' 'Log: N' 'Decisions: N' 'Propagated: N' 'Restarts: N' 'Kept: N' 'Dropped: N' "$worker" "$worker" 'Atoms: N' 'Bodies: N' 'Loops: N' > "$wanted"
"$program" --stats --workers 2 < examples/two_rules.aspif 2> "$notes" > /dev/null
status=$?
sed 's/[0-9][0-9]*/N/g' "$notes" > "$given"
check "counts of two workers" 30 "$wanted" "$status" "$given"
# Nothing is split before somebody has searched, so one of the two finds the one conflict, on one path.
printf '%s\n' 'Conflicts: 1' 'Leaves: 1' 'Log: 1' 'Decisions: 1' > "$wanted"
printf 'asp 1 0 0\n1 1 2 1 2 0 0\n1 0 0 0 2 1 2\n1 0 0 0 2 1 -2\n1 0 0 0 2 -1 2\n1 0 0 0 2 -1 -2\n0\n' | "$program" --stats --workers 2 2> "$notes" > /dev/null
status=${PIPESTATUS[1]}
head -4 "$notes" > "$given"
check "no early split" 20 "$wanted" "$status" "$given"

# What the main thread does at the end is in the sums, and in no worker's line: the second search for all optima decides seven
# times to find eight answers.
echo 7 > "$wanted"
printf 'asp 1 0 0\n1 1 3 1 2 3 0 0\n2 0 1 1 0\n0\n' | "$program" --opt-all --stats --workers 2 2> "$notes" > /dev/null
status=${PIPESTATUS[1]}
sed -nE 's/^Decisions: ([0-9]+)$/\1/p; s/^Worker .* decisions ([0-9]+),.*/-\1/p' "$notes" | paste -s -d '+' | sed 's/+-/-/g' | { read -r sum; echo $((sum)); } > "$given"
check "the second search is counted" 30 "$wanted" "$status" "$given"

# Each example stands in the list of examples.
for text in examples/*.aspif examples/*.smodels examples/*.series; do
    name=$(basename "${text%.*}")
    grep -qF "\`$name\`" examples/README.md || { echo "failed: examples/README.md doesn't list $name"; failed=$((failed + 1)); }
done

# The commands of README, of the page for users of clasp and of the manuals: each line '$ COMMAND' with what follows it, and
# the commands in tables.
for document in README.md docs/CLASP.md man/aspenum.1 ${checker:+man/aspcheck.1}; do
    # shellcheck disable=SC2086
    python3 tests/readme.py "$program" "$document" $checker || failed=$((failed + 1))
done

# Programs that are refuted within so many conflicts.
python3 tests/search.py "$program" || failed=$((failed + 1))

# Lines while a run goes on.
python3 tests/progress.py "$program" || failed=$((failed + 1))

# Answers while the search goes on.
python3 tests/stream.py "$program" || failed=$((failed + 1))

# Random programs beside the plain reference, by one worker and by four.
python3 tests/compare.py "$program" 400 --no-clasp || failed=$((failed + 1))
python3 tests/compare.py "$program --workers 4" 100 --no-clasp || failed=$((failed + 1))
python3 tests/compare.py "$program" 100 --no-clasp --smodels || failed=$((failed + 1))
python3 tests/queries.py "$program" 40 || failed=$((failed + 1))
python3 tests/queries.py "$program --core-min --workers 4" 20 || failed=$((failed + 1))

echo "examples: $passed passed, $failed failed"
[ "$failed" -eq 0 ]
