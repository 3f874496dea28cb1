#!/usr/bin/env bash
# Runs the built program with each of its allocations refused in turn, on a few programs, with one worker and with several.
# Each run must end in want of memory, with status 33, its line and no output (with --stream or --proof: a front of the lines), or as
# it ends with ample memory: the same bytes and status (a thread that can't be made is done without, and so are counts). It needs a C compiler, for a library that
# stands before libc's malloc, and takes a few minutes: it isn't in the gate.
# Usage: tests/allocations.sh [PROGRAM]     (build/aspenum)
cd "$(dirname "$0")/.." || exit 1
program=$(realpath "${1:-build/aspenum}")
test -x "$program" || { echo "no program $program: make builds it" >&2; exit 1; }
room=$(mktemp -d) || exit 1
trap 'rm -rf "$room"' EXIT

# Refuses allocation number REFUSE, from 1 on, of those behind the loader's, and says so on file descriptor 9.
cat > "$room/refuse.c" << 'CODE'
#include <errno.h>
#include <stdatomic.h>
#include <stdlib.h>
#include <unistd.h>
void *__libc_malloc(size_t), *__libc_calloc(size_t, size_t), *__libc_realloc(void *, size_t);
static long wanted;
static atomic_long seen;
__attribute__((constructor)) static void begin(void) {
    const char *number = getenv("REFUSE");
    if (number) { wanted = atol(number); atomic_store(&seen, 0); }
}
static int refused(void) {
    if (!wanted || atomic_fetch_add(&seen, 1) + 1 != wanted) return 0;
    if (write(9, "x", 1) != 1) _exit(99);
    errno = ENOMEM;
    return 1;
}
void *malloc(size_t size) { return refused() ? NULL : __libc_malloc(size); }
void *calloc(size_t count, size_t size) { return refused() ? NULL : __libc_calloc(count, size); }
void *realloc(void *old, size_t size) { return refused() ? NULL : __libc_realloc(old, size); }
CODE
cc -O1 -fno-builtin -shared -fPIC -o "$room/refuse.so" "$room/refuse.c" || exit 1

failed=0

# is_front WORD..: whether nothing was given, or with --stream or --proof among the words a front of what is wanted, without its last two
# lines
is_front() {
    [ -s "$room/given" ] || return 0
    case " $* " in *' --stream '* | *' --proof '*) ;; *) return 1 ;; esac
    head -n -2 "$room/wanted" | head -c "$(wc -c < "$room/given")" | cmp -s - "$room/given"
}

# refuse NAME TEXT WORD..: each allocation in turn, until twenty numbers behind each other weren't reached
refuse() {
    local name=$1 text=$2
    shift 2
    "$program" "$@" < "$text" > "$room/wanted" 2> /dev/null
    local wanted=$? number memory=0 whole=0 beyond=0 status
    for ((number = 1; beyond < 20; number++)); do
        REFUSE=$number LD_PRELOAD=$room/refuse.so "$program" "$@" < "$text" > "$room/given" 2> "$room/notes" 9> "$room/refused"
        status=$?
        if [ -s "$room/refused" ]; then beyond=0; else beyond=$((beyond + 1)); fi
        if [ "$status" = "$wanted" ] && cmp -s "$room/given" "$room/wanted"; then
            whole=$((whole + 1))
        elif [ "$status" = 33 ] && is_front "$@" && [ "$(cat "$room/notes")" = 'aspenum: out of memory' ]; then
            memory=$((memory + 1))
        else
            failed=$((failed + 1))
            echo "failed: $name $*, allocation $number: status $status, $(wc -c < "$room/given") bytes; $(head -c 200 "$room/notes")"
        fi
    done
    echo "$name $*: $((memory + whole)) runs, $memory out of memory"
}

for workers in 1 2 4 16; do
    refuse 'an example' examples/colouring.aspif --workers "$workers"
    refuse 'an optimum' examples/independent_set.aspif --workers "$workers"
done
refuse 'an example' examples/colouring.aspif --stats
refuse 'an example' examples/colouring.aspif --proof
refuse 'an optimum' examples/independent_set.aspif --opt-all
printf 'asp 1 0 0\n1 1 9 1 2 3 4 5 6 7 8 9 0 0\n0\n' > "$room/free"
refuse '512 answers, as they come' "$room/free" --mode enum --stream
printf 'asp 1 0 0\n1 1 10 1 2 3 4 5 6 7 8 9 10 0 0\n0\n' > "$room/more"
refuse '1024 answers, as they come' "$room/more" --mode enum --stream --workers 4
refuse 'the first 100 of 512 answers' "$room/free" --mode enum --stream --models 100
refuse '512 optima, as they come' "$room/free" --mode opt --opt-all --stream
refuse 'the first 100 of 512 optima' "$room/free" --mode opt --opt-all --stream --models 100
refuse 'an example' examples/colouring.aspif --split 4
[ "$failed" -eq 0 ]
