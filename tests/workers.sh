#!/usr/bin/env bash
# workers.sh PROGRAM [RUNS [ARGUMENT..]]: each of ten small programs, enumerated by one worker once, by four as often as RUNS says
# (100), and by 2, 8 and 64 a fifth as often, gives one output. The arguments, as --log row, are for the runs with several.
set -euo pipefail
program=$(realpath "$1"); runs=${2:-100}; several=("${@:3}")
here=$(cd "$(dirname "$0")" && pwd); work=$(mktemp -d); trap 'rm -rf "$work"' EXIT

free() { echo "asp 1 0 0"; echo "1 1 $1 $(seq -s ' ' "$1") 0 0"; echo 0; }
ground() { gringo "$@" > "$work/$name"; }

name=free; free 10 > "$work/$name"
name=pairs; { free 12 | sed '$d'; for i in 1 3 5 7 9 11; do echo "1 0 0 0 2 $i $((i + 1))"; done; echo 0; } > "$work/$name"
name=queens; ground -c n=7 "$here/../bench/lp/queens.lp"
name=hamilton; ground -c n=6 "$here/../bench/lp/ham.lp"
name=pigeon; ground -c n=5 "$here/../bench/lp/pigeon.lp"
name=latin; ground -c n=4 "$here/../bench/lp/latin.lp"

fail=0
compare() { # NAME ARGS: the same bytes, read from standard input where there is a file of the name
  local name=$1; shift
  local input=/dev/null; [ -f "$work/$name" ] && input="$work/$name"
  local once status; once=$(mktemp -p "$work"); status=0
  "$program" --mode enum "$@" < "$input" > "$once" || status=$?
  local workers count i got
  for workers in 4 2 8 64; do
    count=$runs; [ "$workers" = 4 ] || count=$(((runs + 4) / 5))
    for ((i = 0; i < count; i++)); do
      got=0
      "$program" --mode enum --workers "$workers" "${several[@]}" "$@" < "$input" > "$work/many" || got=$?
      if [ "$got" != "$status" ] || ! cmp -s "$once" "$work/many"; then
        echo "$name: another output by $workers workers"; fail=1; return
      fi
    done
  done
  echo "$name: the same"
}

for name in free pairs queens hamilton pigeon latin; do compare "$name"; done
compare ring3 --make 3
compare ring7 --make 7
compare ring10 --make 10
compare ring12 --make 12
exit $fail
