#!/usr/bin/env bash
# What the gate costs from nothing: runs it in a fresh clone of what is committed, and prints a table of the processor
# time of each crate's proofs, tests and edits.
# Usage: tools/gate.sh [--save FILE] [NAME..]     (the gate's `rt ci` and its tests of calls; or `rt ci` of these crates and
# those below them alone)
# `--anew`, where rt knows it, has rt take nothing that earlier runs kept on this machine, and it leaves that as it is: nothing
# has to be moved aside. An rt that doesn't know it keeps nothing. Whatever else runs here makes the processors slower, so
# have nothing else run.
root=$(cd "$(dirname "$0")/.." && pwd) || exit 1
save=()
if [ "$1" = --save ]; then
    save=(--save "$(realpath -m "$2")")
    shift 2
fi
room=$(mktemp -d) || exit 1
trap 'rm -rf "$room"' EXIT
git clone -q --no-local "$root" "$room/aspenum" || exit 1
cd "$room/aspenum" || exit 1
anew=()
rt help 2>&1 | grep -q -e --anew && anew=(--anew)
if [ $# -gt 0 ]; then
    python3 tools/gate.py "${save[@]}" rt ci "${anew[@]}" "$@"
else
    python3 tools/gate.py "${save[@]}" bash -c 'rt ci "$@" && tests/calls.sh' gate "${anew[@]}"
fi
