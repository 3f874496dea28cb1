#!/usr/bin/env bash
# Runs the built program under `ulimit -v`, from 2 MB up in steps, on seven programs with one worker, on three with 1, 4, 16
# and 64, and on a query with four. Each run must end out of memory, with status 33, its line and no output, or as it ends with ample memory: the same
# bytes and status. With --stream a run that is out of memory must have written a front of the lines of answers. A run that the loader ended, out of memory before `main`, is counted alone: `--help` doesn't come through
# there either. Where the limit is small no thread can be made, and all workers are called on the main thread's stack.
# Usage: tests/memory.sh [PROGRAM [STEP]]     (build/aspenum; STEP in KB, 64 where none is named)
# (memory at the same addresses in each run, where the system lets us)
if [ -z "$FIXED" ]; then
    export FIXED=yes
    setarch -R true 2> /dev/null && exec setarch -R "$0" "$@"
fi
cd "$(dirname "$0")/.." || exit 1
program=$(realpath "${1:-build/aspenum}")
step=${2:-64}
test -x "$program" || { echo "no program $program: make builds it" >&2; exit 1; }
room=$(mktemp -d) || exit 1
trap 'rm -rf "$room"' EXIT
declare -A count=()
failed=0

# facts N: N facts, each with its text
facts() {
    echo 'asp 1 0 0'
    for ((i = 1; i <= $1; i++)); do
        echo "1 0 1 $i 0 0"
        echo "4 3 a$((i + 9)) 1 $i"
    done
    echo 0
}

# free N: N free atoms, and so 2 ^ N answers
free() {
    printf 'asp 1 0 0\n1 1 %d' "$1"
    printf ' %d' $(seq "$1")
    printf ' 0 0\n0\n'
}

# pigeons N: N + 1 pigeons in N holes, where the search has to learn
pigeons() {
    local n=$1
    local pigeon hole other
    echo 'asp 1 0 0'
    for ((pigeon = 0; pigeon <= n; pigeon++)); do
        printf '1 1 %d' "$n"
        for ((hole = 1; hole <= n; hole++)); do printf ' %d' $((pigeon * n + hole)); done
        printf ' 0 0\n1 0 0 0 %d' "$n"
        for ((hole = 1; hole <= n; hole++)); do printf ' -%d' $((pigeon * n + hole)); done
        echo
        for ((other = 0; other < pigeon; other++)); do
            for ((hole = 1; hole <= n; hole++)); do
                echo "1 0 0 0 2 $((pigeon * n + hole)) $((other * n + hole))"
            done
        done
    done
    echo 0
}

# under LIMIT COMMAND..: runs it under so many KB
under() (
    ulimit -v "$1" && shift && exec "$@"
)

# ends_before_main STATUS LIMIT: whether the loader (127), or the kernel in its place, ended the run that left given and
# notes
ends_before_main() {
    [ -s "$room/given" ] && return 1
    grep -q '^aspenum' "$room/notes" && return 1
    case $1 in
        126 | 127 | 137 | 139) ! under "$2" "$program" --help > /dev/null 2>&1 ;;
        *) false ;;
    esac
}

# is_front: whether what was given is a front of what is wanted, without its last two lines, and of a stream, or nothing
is_front() {
    [ -s "$room/given" ] || return 0
    [ "$streams" = yes ] || return 1
    head -n -2 "$room/wanted" | head -c "$(wc -c < "$room/given")" | cmp -s - "$room/given"
}

# kind STATUS WANTED_STATUS LIMIT: what a run's end is
kind() {
    if [ "$1" = "$2" ] && cmp -s "$room/given" "$room/wanted"; then
        echo whole
    elif [ "$1" = 33 ] && is_front && [ "$(cat "$room/notes")" = 'aspenum: out of memory' ]; then
        echo memory
    elif ends_before_main "$1" "$3"; then
        echo loader
    else
        echo wrong
    fi
}

# attempt NAME WANTED_STATUS LIMIT TEXT [WORD..]: one run, whose kind is in found
attempt() {
    local name=$1 wanted=$2 limit=$3 text=$4 status
    shift 4
    under "$limit" "$program" "$@" < "$text" > "$room/given" 2> "$room/notes"
    status=$?
    found=$(kind "$status" "$wanted" "$limit")
    count[$found]=$((count[$found] + 1))
    [ "$found" = wrong ] || return
    failed=$((failed + 1))
    echo "failed: $name under $limit KB: status $status, $(wc -c < "$room/given") bytes; $(head -c 200 "$room/notes")"
}

# squeeze NAME TEXT [WORD..]: runs the program on the text, in more and more memory, until twenty runs in turn were whole
squeeze() {
    local name=$1 text=$2 streams=no
    shift 2
    case " $* " in *' --stream '*) streams=yes ;; esac
    "$program" "$@" < "$text" > "$room/wanted" 2> /dev/null
    local wanted=$? limit=2048 whole=0 more found
    count=([whole]=0 [memory]=0 [loader]=0 [wrong]=0)
    while [ "$whole" -lt 20 ]; do
        attempt "$name" "$wanted" "$limit" "$text" "$@"
        if [ "$found" = whole ]; then whole=$((whole + 1)); else whole=0; fi
        limit=$((limit + step))
    done
    # with several workers twenty times more, with 4 MB more each time: there some threads can be made
    case " $* " in
        *' --workers '[2-9]* | *' --workers '[1-9][0-9]*)
            for ((more = 0; more < 20; more++)); do
                attempt "$name" "$wanted" "$limit" "$text" "$@"
                limit=$((limit + 4096))
            done
            ;;
    esac
    echo "$name: ${count[memory]} out of memory, ${count[whole]} whole, ${count[loader]} ended by the loader, ${count[wrong]} wrong (up to $limit KB)"
}

facts 2000 > "$room/facts"
free 10 > "$room/free"
pigeons 6 > "$room/pigeons"
squeeze 'an example' examples/colouring.aspif
squeeze '2000 facts' "$room/facts" --stats
free 14 > "$room/many"
squeeze '1024 answers, as they come' "$room/free" --mode enum --stream
squeeze 'the first 500 of 1024 answers' "$room/free" --mode enum --stream --models 500
squeeze '16384 answers, as they come' "$room/many" --mode enum --stream
squeeze '16384 answers, as they come, workers: 4' "$room/many" --mode enum --stream --workers 4
squeeze '16384 optima, as they come' "$room/many" --mode opt --opt-all --stream
for workers in 1 4 16 64; do
    squeeze "an optimum, workers: $workers" examples/independent_set.aspif --workers "$workers"
    squeeze "1024 answers, workers: $workers" "$room/free" --mode enum --workers "$workers"
    squeeze "pigeons, workers: $workers" "$room/pigeons" --workers "$workers"
done
{ pigeons 7 && printf '6 0\n0\n'; } > "$room/query"
squeeze 'a query, workers: 4' "$room/query" --queries --workers 4
[ "$failed" -eq 0 ]
