#!/usr/bin/env bash
# Runs the tests of tests/calls, of calls that the built program doesn't make, or whose outcome it doesn't show, and the example
# of examples/library. They are built without any proof, in a copy, as the crates asp_calls and asp_library above those of
# crates/.
# Usage: tests/calls.sh [-f | CRATE ..]     (-f lays the files out as rt fmt does, and runs nothing; else both crates, or those
# that are named)
# Ends with 1 where a test fails, where one is in no module that lib.try names, where the example writes anything but its file
# main.out, where they can't be built, and where a file is laid out otherwise. Each file has the ending .try, since `rt ci`
# proves what ends in .rt.
cd "$(dirname "$0")/.." || exit 2
declare -A folders=([asp_calls]=tests/calls [asp_library]=examples/library)
only=
[ "${1:-}" != -f ] || { only=layout; shift; }
crates=("$@")
[ $# -gt 0 ] || crates=(asp_calls asp_library)
room=$(mktemp -d) || exit 2
trap 'rm -rf "$room"' EXIT
trap 'exit 130' INT TERM
top=$PWD
tar -cf - --exclude='crates/*/out' --exclude='crates/*/proofs' crates crates.txt HANDLES | tar -xf - -C "$room" || exit 2
# (it is the top of a repository)
mkdir "$room/.git"
failed=0

# made CRATE: copies its files, and compares their layout, or takes it over
made() {
    local folder=$top/${folders[$1]} below file own
    [ -n "${folders[$1]:-}" ] || { echo "calls: no crate $1" >&2; exit 64; }
    mkdir -p "$room/crates/$1/src"
    for file in "$folder"/*.try; do
        cp "$file" "$room/crates/$1/src/$(basename "$file" .try).rt" || exit 2
    done
    # It stands on the crates that it names.
    below=$(grep -ohE '\basp_[a-z_]+(::|\.specs)' "$folder"/*.try | sed 's/::\|\.specs//' | sort -u | tr '\n' ' ')
    echo "$1: $below" >> "$room/crates.txt"
    cd "$room/crates/$1" || exit 2
    rt fmt > "$room/layout" || exit 1
    for file in src/*.rt; do
        own=$folder/$(basename "$file" .rt).try
        if [ -n "$only" ]; then
            cp "$file" "$own" || exit 2
        elif ! cmp -s "$file" "$own"; then
            echo "calls: ${own#"$top/"} is laid out otherwise (tests/calls.sh -f)"
            failed=1
        fi
    done
}

# Five minutes for a test, and for the example: it takes a second, but a machine at work gives it little.
run_calls() {
    local tests passed status
    tests=$(grep -ohE '^ *#\[test\]' src/*.rt | wc -l)
    rt try --test --seconds 300 > "$room/told" 2>&1
    status=$?
    passed=$(grep -c '^test .* \.\.\. ok$' "$room/told")
    if [ "$status" -ne 0 ] || [ "$passed" -ne "$tests" ] || [ "$passed" -eq 0 ]; then
        grep -v '^test .* \.\.\. ok$' "$room/told"
        echo "calls: status $status, $passed of $tests tests passed"
        failed=1
    else
        echo "calls: $passed passed, 0 failed"
    fi
}

run_library() {
    local status
    rt try --seconds 300 < /dev/null > "$room/written" 2> "$room/told"
    status=$?
    if [ "$status" -ne 0 ] || ! diff "$top/examples/library/main.out" "$room/written"; then
        cat "$room/told"
        echo "calls: status $status of examples/library"
        failed=1
    else
        echo "calls: examples/library passed"
    fi
}

for crate in "${crates[@]}"; do
    made "$crate"
    case $only$crate in
        asp_calls) run_calls ;;
        asp_library) run_library ;;
    esac
done
exit "$failed"
