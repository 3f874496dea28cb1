#!/usr/bin/env bash
# Solves a program in parts by GNU parallel, and writes what one run of aspenum writes. Run again on the same folder, it goes
# on where it was stopped: parts that are done aren't solved again.
# Usage: solve.sh PARTS FOLDER [OPTION OF aspenum].. [-- OPTION OF parallel]..  < PROGRAM.aspif
#   solve.sh 64 parts < program.aspif                                   on this machine, a job for each processor
#   solve.sh 640 parts -- --sshloginfile hosts < program.aspif          on the machines that the file names, each with aspenum
set -euo pipefail
here=$(cd "$(dirname "$0")" && pwd)
parts=$1
folder=$2
shift 2
options=()
while [ $# -gt 0 ] && [ "$1" != -- ]; do
    options+=("$1")
    shift
done
[ $# -eq 0 ] || shift

"$here/prepare.sh" "$parts" "$folder"
cd "$folder"
seq "$(wc -l < cubes)" | parallel --joblog joblog --resume-failed --retries 3 --env ASPENUM \
    --basefile program --basefile cubes --basefile part.sh --return 'out/{}' "$@" \
    sh part.sh '{}' "${options[@]}"
python3 "$here/join.py" .
