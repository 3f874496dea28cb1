#!/bin/sh
# Solves one part of a program, and writes its results to out/NUMBER, whole or not at all. It ends with 0 where aspenum wrote
# results, and else with aspenum's status, so that whoever started it can start it again.
# Usage, in the folder of the parts: part.sh NUMBER [OPTION OF aspenum]..
number=$1
shift
mkdir -p out
{ cat program && sed -n "${number}p" cubes && echo 0; } | "${ASPENUM:-aspenum}" "$@" > "out/$number.new"
status=$?
case $status in
    30 | 20 | 10 | 1) mv "out/$number.new" "out/$number" ;;
    *) rm -f "out/$number.new"; exit "$status" ;;
esac
