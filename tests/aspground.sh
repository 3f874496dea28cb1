#!/usr/bin/env bash
# Tries bin/aspground with a script in gringo's place, and with gringo itself where it is installed.
# Usage: tests/aspground.sh PROGRAM
# shellcheck disable=SC2016
# What a shell without job control starts in the background ignores SIGINT, and no shell below takes that back.
[ -n "${HAS_SIGNALS:-}" ] || HAS_SIGNALS=1 exec env --default-signal=INT "$BASH" "$0" "$@"
cd "$(dirname "$0")/.." || exit 2
[ $# -eq 1 ] || { sed -n '3s/^# //p' "$0" >&2; exit 64; }
program=$(realpath "$1")
script=$PWD/bin/aspground
room=$(mktemp -d) || exit 2
trap 'rm -rf "$room"' EXIT
passed=0
failed=0

# check WHAT COMMAND..
check() {
    if "${@:2}"; then passed=$((passed + 1)); else failed=$((failed + 1)); echo "failed: $1"; fi
}

# What aspground calls, without what else stands in the system's folders: there may be a gringo.
mkdir "$room/tools" "$room/bin" "$room/tmp" "$room/beside"
for tool in cat grep head mktemp readlink rm sh sleep; do
    ln -s "$(command -v $tool)" "$room/tools"
done
# gringo keeps its arguments, and does what the test has written into `act`
cat > "$room/bin/gringo" << 'END'
#!/bin/sh
printf '%s\n--\n' "$@" > "$ROOM/arguments"
. "$ROOM/act"
END
chmod +x "$room/bin/gringo"
export ROOM=$room TMPDIR=$room/tmp ASPENUM=$program
cp examples/colouring.aspif "$room/aspif"

# ground ARGUMENT..
ground() {
    PATH=$room/bin:$room/tools "$script" "$@" > "$room/out" 2> "$room/err"
    status=$?
}
# told WHAT STATUS [OUTPUT [NOTES]]: what the last call did, and that it left no file
told() {
    printf '%b' "${3:-}" > "$room/wanted_out"
    printf '%b' "${4:-}" > "$room/wanted_err"
    check "$1: status $status, wanted $2" [ "$status" -eq "$2" ]
    check "$1: output" diff "$room/wanted_out" "$room/out"
    check "$1: notes" diff "$room/wanted_err" "$room/err"
    check "$1: a file is left" [ -z "$(ls -A "$room/tmp")" ]
}
both='Answer: 1\nred(2) red(4)\nAnswer: 2\nred(1) red(3)\nSATISFIABLE\nModels: 2\n'
first='Answer: 1\nred(2) red(4)\nLIMIT REACHED\nModels: 1+\n'
failure='x.lp:1:1-2: error: syntax error\n'

echo 'cat "$ROOM/aspif"' > "$room/act"
ground x.lp
told "all answers" 30 "$both"
ground x.lp -- --models 1
told "aspenum's arguments" 11 "$first"
# what aspenum is called with: answers come as they are found, where all are asked for and nothing is minimised
cat > "$room/words" << 'END'
#!/bin/sh
cat > /dev/null
echo "$@"
exit 30
END
chmod +x "$room/words"
# words WANTED ARGUMENT..
words() {
    ASPENUM=$room/words ground x.lp "${@:2}"
    told "the words for ${*:2}" 30 "$1\n"
}
words '--names --stream'
words '--names --stream --stats --budget 5' -- --stats --budget 5
for word in --models=1 --workers=2 --mode=opt -q --output=json --proof --opt-all --stream; do
    words "--names $word" -- "$word"
done
words '--split=2' -- --split=2
echo 'cat "$ROOM/aspif"; echo "2 0 1 1 1"' > "$room/act"
words '--names'
echo 'cat "$ROOM/aspif"' > "$room/act"
ground -- --models=1
told "no argument for gringo" 11 "$first"
ground x.lp --
told "no argument for aspenum" 30 "$both"
ground x.lp -- --models 1 --
told "aspenum's own --" 11 "$first"
named='Consequences: red(1) red(2) red(3) red(4)\nCONSEQUENCES FOUND\n'
ground x.lp -- -e brave
told "consequences by name" 30 "$named"
ground x.lp -- -e brave --names
told "names that were asked for" 30 "$named"
ground x.lp -- --split 1
check "parts: status $status, wanted 0" [ "$status" -eq 0 ]
ground 'a b' '' '*' "c'd\"" $'e\nf' -c 'n=$(x)' -- --models 1
told "arguments of all kinds" 11 "$first"
printf '%s\n--\n' 'a b' '' '*' "c'd\"" $'e\nf' -c 'n=$(x)' > "$room/wanted"
check "gringo's arguments" diff "$room/wanted" "$room/arguments"
echo 'cat' > "$room/act"
ground - < "$room/aspif"
told "standard input" 30 "$both"
echo 'cat "$ROOM/aspif"' > "$room/act"
ground x.lp <&-
told "no standard input" 30 "$both"
printf 'printf "asp 1 0 0\\n1 0 0 0 0\\n0\\n"' > "$room/act"
ground x.lp
told "no answer" 20 'UNSATISFIABLE\nModels: 0\n'

# What gringo tells comes before what aspenum tells.
printf 'echo "x.lp:1:1: info: an atom" >&2; cat "$ROOM/aspif"' > "$room/act"
ground x.lp
told "gringo's note" 30 "$both" 'x.lp:1:1: info: an atom\n'
printf 'printf "asp 1 0 0\\n3 0\\n"; sleep 0.2; echo "x.lp:1:1: info: an atom" >&2' > "$room/act"
ground x.lp
told "both tell" 65 '' 'x.lp:1:1: info: an atom\naspenum: line 2: projection not supported\n'

# Where gringo fails, nothing is solved, whatever it has written.
for text in '' 'head -n 3 "$ROOM/aspif";' 'cat "$ROOM/aspif";'; do
    printf '%s printf "%s" >&2; exit 1' "$text" "$failure" > "$room/act"
    ground x.lp
    told "gringo fails after '$text'" 65 '' "${failure}aspground: gringo failed with status 1\n"
done
printf 'cat "$ROOM/aspif"; printf "%s" >&2' "$failure" > "$room/act"
ground x.lp
told "gringo tells of an error alone" 65 '' "${failure}aspground: gringo told of an error\n"
echo 'cat "$ROOM/aspif"; kill -KILL $$' > "$room/act"
ground x.lp
told "gringo is ended" 65 '' 'aspground: gringo was ended by signal KILL\n'
echo 'cat "$ROOM/aspif"; exec cat /dev/zero' > "$room/act"
ground x.lp
told "a text without end" 67 '' 'aspenum: input too long\n'

# Faulty arguments are told before gringo is called.
echo 'cat "$ROOM/aspif"' > "$room/act"
rm "$room/arguments"
"$program" --modles < /dev/null > /dev/null 2> "$room/usage"
ground x.lp -- --modles
told "a faulty argument" 64 '' "$(sed 's/\\/\\\\/g' "$room/usage")\n"
ground x.lp -- --make 5
told "--make" 64 '' 'aspground: --make reads no program: call aspenum for it\n'
ground x.lp -- --version
told "aspenum's version" 0 "$("$program" --version)\n"
ground x.lp --help
check "help: status $status" [ "$status" -eq 0 ]
check "help" grep -q "^usage: aspground " "$room/out"
check "help: lines of at most 80 columns" [ -z "$(grep -E '.{81}' "$room/out")" ]
check "gringo isn't called" [ ! -e "$room/arguments" ]
echo 'echo "gringo version 5"; echo more' > "$room/act"
ground --version
told "versions" 0 "$("$program" --version)\ngringo version 5\n"

# Where the programs are.
echo 'cat "$ROOM/aspif"' > "$room/act"
mv "$room/bin/gringo" "$room/bin/clingo"
ground x.lp -- --models 1
told "clingo" 11 "$first"
check "clingo's arguments" [ "$(head -n 1 "$room/arguments")" = --mode=gringo ]
mv "$room/bin/clingo" "$room/kept"
ground x.lp
told "no gringo" 69 '' 'aspground: gringo is missing (Debian: apt-get install gringo)\n'
mv "$room/kept" "$room/bin/gringo"
ASPENUM=$room/nothing
ground x.lp
told "ASPENUM names nothing" 69 '' "aspground: ASPENUM names no program: $room/nothing\n"
unset ASPENUM
cp "$script" "$room/beside"
script=$room/beside/aspground
ground x.lp
told "no aspenum" 69 '' "aspground: aspenum is missing: it is neither in $room/beside nor in PATH\n"
ln -s "$program" "$room/bin/aspenum"
ground x.lp
told "aspenum in PATH" 30 "$both"
printf '#!/bin/sh\n[ $# -gt 0 ] || echo beside\n' > "$room/beside/aspenum"
chmod +x "$room/beside/aspenum"
ground x.lp
told "aspenum beside aspground" 0 'beside\n'
ln -s ../beside/aspground "$room/tools/aspground"
script=$room/tools/aspground
ground x.lp
told "aspenum beside the script of a link" 0 'beside\n'
script=$PWD/bin/aspground
rm "$room/bin/aspenum"

# No folder for a file.
export ASPENUM=$program
TMPDIR=$room/nothing
ground x.lp
check "no folder for a file: status $status" [ "$status" -eq 73 ]
check "no folder for a file: output" [ ! -s "$room/out" ]
TMPDIR=$room/tmp

# Signals: gringo ends too, and no file is left; aspenum is the process that was called. (A shell without job control starts
# what runs beside it without SIGINT, and `nohup` starts this test without SIGHUP.)
soon() {
    for _ in {1..600}; do "$@" && return; sleep 0.1; done
    false
}
gone() { ! kill -0 "$1" 2> /dev/null; }
set -m
for signal in HUP INT TERM; do
    rm -f "$room/pid"
    echo 'echo $$ > "$ROOM/pid"; exec sleep 60' > "$room/act"
    env --default-signal=HUP,INT,TERM PATH="$room/bin:$room/tools" "$script" x.lp > "$room/out" 2> "$room/err" &
    pid=$!
    soon [ -s "$room/pid" ]
    kill -s $signal $pid
    wait $pid 2> /dev/null
    check "$signal: status" [ "$(kill -l $?)" = $signal ]
    check "$signal: gringo goes on" soon gone "$(cat "$room/pid")"
    check "$signal: output" [ ! -s "$room/out" ]
    check "$signal: a file is left" [ -z "$(ls -A "$room/tmp")" ]
done
rm -f "$room/pid"
echo 'cat "$ROOM/aspif"' > "$room/act"
printf '#!/bin/sh\nread -r line || exit 65\necho $$ > "$ROOM/pid"; exec sleep 60\n' > "$room/slow"
chmod +x "$room/slow"
ASPENUM=$room/slow PATH=$room/bin:$room/tools "$script" x.lp > "$room/out" 2> "$room/err" &
pid=$!
soon [ -s "$room/pid" ]
check "aspenum is another process" [ "$(cat "$room/pid")" = $pid ]
kill $pid
wait $pid 2> /dev/null
check "TERM while it is solved: status" [ $? -eq 143 ]
check "TERM while it is solved: a file is left" [ -z "$(ls -A "$room/tmp")" ]
set +m

# The real gringo.
if command -v gringo > /dev/null; then
    for file in examples/*.lp; do
        name=${file%.lp}
        [ -e "$name.aspif" ] || continue
        mapfile -t words < <(tr ' ' '\n' 2> /dev/null < "$name.words")
        "$script" "$file" -- "${words[@]}" > "$room/out" 2> "$room/err"
        got=$?
        "$program" "${words[@]}" < "$name.aspif" > "$room/wanted"
        check "$file: status" [ $? -eq $got ]
        check "$file" cmp "$room/wanted" "$room/out"
    done
    "$script" "$room/nothing.lp" > "$room/out" 2> "$room/err"
    status=$?
    told "a file that isn't there" 65 '' "<cmd>: error: file could not be opened:\n  $room/nothing.lp\n\naspground: gringo told of an error\n"
    echo 'a :- b' > "$room/x.lp"
    "$script" "$room/x.lp" > "$room/out" 2> "$room/err"
    check "a fault in a program: status" [ $? -eq 65 ]
    check "a fault in a program: output" [ ! -s "$room/out" ]
    check "a fault in a program: gringo's note" grep -q 'x.lp:2:1-2: error: syntax error' "$room/err"
    check "a fault in a program: aspenum's note" [ -z "$(grep aspenum "$room/err")" ]
    check "the manual's commands" python3 tests/readme.py "$program" man/aspground.1
fi
echo "aspground: $passed passed, $failed failed"
[ "$failed" -eq 0 ]
