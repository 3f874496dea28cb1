#!/usr/bin/env bash
# A first look: solves a program with the solver that was built without its proofs, and shows the command that does so.
# Usage: tools/demo.sh PROGRAM [FILE]     (FILE is a program for gringo, or one that gringo has grounded, FILE.aspif; a small
# timetable where none is named)
# Ends with the solver's status where it tells of an answer or of none, and else with 1.
set -u
program=$1
file=${2:-}
name=${program#"$PWD"/}

echo "$name was built without its proofs: a first look, not the proved program ('make' proves and builds build/aspenum)."
case $file in
    '')
        cat examples/timetable.lp
        command="$name < examples/timetable.aspif"
        "$program" < examples/timetable.aspif > build/answers
        ;;
    *.aspif)
        [ -r "$file" ] || { echo "demo: $file can't be read" >&2; exit 1; }
        command="$name < $file"
        "$program" < "$file" > build/answers
        ;;
    *)
        [ -r "$file" ] || { echo "demo: $file can't be read" >&2; exit 1; }
        command -v gringo > /dev/null || { echo "demo: $file is to be grounded by gringo, which isn't installed (Debian: apt-get install gringo)" >&2; exit 1; }
        command="gringo $file | $name"
        gringo "$file" > build/grounded || exit 1
        "$program" < build/grounded > build/answers
        ;;
esac
status=$?
echo
echo "\$ $command"
# (a long list is cut)
lines=$(wc -l < build/answers)
if [ "$lines" -gt 60 ]; then
    head -n 40 build/answers
    echo ".. ($((lines - 50)) lines; all are in build/answers)"
    tail -n 10 build/answers
else
    cat build/answers
fi
echo "status $status"
case $status in
    10 | 11 | 20 | 30) ;;
    *) exit 1 ;;
esac
