#!/usr/bin/env bash
# Tries the edits that the gate leaves out, those of edits/NAME, beside those of crates/NAME/must-fail: the check must
# refuse each.
# Usage: tests/edits.sh [-n] [-q] [-t] [-o] [-j JOBS] [-p CLONE] [NAME..]     (every crate of edits/ where none is named)
#   -n         says which of them can't be applied, and tries none, in seconds
#   -q         tries each by a check of the one function that it changes first, which needs no proof of the crate before:
#              cheaper where no check of the crate was kept; what isn't refused there is tried as without it
#   -t         tries those of a crate by one check with all of them first, at most one a function: what isn't refused in the
#              function that it changes is tried as without it. Cheapest for many edits
#   -o         leaves out the crates of which all edits were refused before, of the same sources and edits: edits/TRIED has them
#   -j JOBS    so many checks side by side, whatever memory they take; without it rt chooses
#   -p CLONE   takes the libraries that `rt ci` left in this clone, of the crates that are the same there with all below
#              them: where rt keeps nothing beside the kit
# Works on a copy, so that the tree may change meanwhile. An edit's check begins with what `rt check` kept of its crate on
# this machine, and the crates below are those that `rt ci` proved here: run one of them before. Where neither did, rt
# proves them in the copy.
# Ends with 1 where an edit is not refused or can't be tried, with 2 where it is called wrongly.
cd "$(dirname "$0")/.." || exit 2
tries=yes
tried=()
once=no
quick=no
at_once=no
while getopts nqtoj:p: flag; do
    case $flag in
        o) once=yes ;;
        n) tries=no ;;
        q) quick=yes ;;
        t) at_once=yes ;;
        j) export RT_JOBS=$OPTARG ;;
        p) PROVED=$(cd "$OPTARG" && pwd) || exit 2; export PROVED ;;
        *) exit 2 ;;
    esac
done
shift $((OPTIND - 1))
[[ ${RT_JOBS:-1} =~ ^[1-9][0-9]*$ ]] || { echo "edits: -j wants a number" >&2; exit 2; }

if [ $# -gt 0 ]; then
    names=("$@")
else
    names=()
    for folder in edits/*/; do
        names+=("$(basename "$folder")")
    done
fi
for name in "${names[@]}"; do
    [ -d "crates/$name" ] || { echo "edits: there is no crate $name" >&2; exit 2; }
done

if [ "$once" = yes ]; then
    read -r -a names < <(python3 tests/edits.py untried . "${names[@]}")
    [ ${#names[@]} -gt 0 ] || { echo "edits: each of these crates' edits was refused before, of the same files"; exit 0; }
fi

room=$(mktemp -d) || exit 2
trap 'rm -rf "$room"' EXIT
trap 'exit 130' INT TERM
tar -cf - --exclude='crates/*/out' crates crates.txt HANDLES | tar -xf - -C "$room" || exit 2
for name in "${names[@]}"; do
    [ -d "edits/$name" ] || continue
    tried+=("$name")
    mkdir -p "$room/crates/$name/must-fail" "$room/edits"
    cp -r "edits/$name" "$room/edits/"
    cp "crates/$name/must-fail/"*.edit "$room/edits/$name/" 2> /dev/null
    for edit in "edits/$name"/*.edit; do
        if [ -e "crates/$name/must-fail/$(basename "$edit")" ]; then
            echo "edits: $edit stands in crates/$name/must-fail too" >&2
            exit 2
        fi
        cp "$edit" "$room/crates/$name/must-fail/"
    done
done
# (it is the top of a repository)
mkdir "$room/.git"

if [ "$tries" = no ]; then
    python3 tests/edits.py applied "$room" "${names[@]}"
    exit
fi
python3 tests/edits.py libraries "$room" "${names[@]}"
status=0
: > "$room/told"
# Tries edits another way, which takes away those that it finds refused.
try_by() {
    [ ${#names[@]} -gt 0 ] || return
    python3 tests/edits.py "$1" "$room" "${names[@]}" 2>&1 | tee -a "$room/told"
    status=$((status + PIPESTATUS[0]))
    left=()
    for name in "${names[@]}"; do
        compgen -G "$room/crates/$name/must-fail/*.edit" > /dev/null && left+=("$name")
    done
    names=("${left[@]}")
}
[ "$at_once" = no ] || try_by together
[ "$quick" = no ] || try_by functions
if [ ${#names[@]} -gt 0 ]; then
    (cd "$room" && rt must-fail "${names[@]}") 2>&1 | tee -a "$room/told"
    status=$((status + PIPESTATUS[0]))
fi

[ ${#tried[@]} -eq 0 ] || python3 tests/edits.py tried "$room" "$room/told" "${tried[@]}"
count() { grep -cE "^(rt|edits): .*: $1" "$room/told"; }
refused=$(count 'refused, as it must be')
missed=$(count 'NOT REFUSED')
bad=$(count 'BAD EDIT')
untried=$(count 'NOT TRIED')
line="$refused refused, $missed not refused, $bad bad"
[ "$untried" -eq 0 ] || line+=", $untried not tried"
echo "$line"
[ "$status" -eq 0 ] && [ $((missed + bad + untried)) -eq 0 ]
