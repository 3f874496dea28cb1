#!/usr/bin/env bash
# Solves programs in parts by examples/cluster/solve.sh, also where jobs were killed and where the run was, and compares with one
# run: three enumerations byte for byte, two optimisations by their costs. It needs GNU parallel and python3; it isn't in the gate.
# Usage: tests/cluster.sh [PROGRAM]     (the program is build/aspenum where none is named)
set -euo pipefail
cd "$(dirname "$0")/.."
program=$(realpath "${1:-build/aspenum}")
folder=$(mktemp -d)
trap 'rm -rf "$folder"' EXIT
solve=$PWD/examples/cluster/solve.sh
say() { echo "cluster: $*"; }
fail() { say "failed: $*"; exit 1; }

# queens SIZE: the ways to place as many queens as the board has rows
queens() {
    python3 - "$1" << 'PYTHON'
import sys
n = int(sys.argv[1])
def atom(row, column):
    return row * n + column + 1
print("asp 1 0 0")
for row in range(n):
    line = [atom(row, column) for column in range(n)]
    print("1 1", n, *line, "0 0")
    print("1 0 0 1 2", n, *[word for a in line for word in (a, 1)])
    print("1 0 0 0", n, *[-a for a in line])
squares = [(row, column) for row in range(n) for column in range(n)]
for r, c in squares:
    for s, d in squares:
        if r < s and (c == d or abs(c - d) == s - r):
            print("1 0 0 0 2", atom(r, c), atom(s, d))
for r, c in squares:
    text = f"q({r + 1},{c + 1})"
    print("4", len(text), text, "1", atom(r, c))
print("0")
PYTHON
}

# cover NODES: a least set of a ring's nodes that has one of each two neighbours, and its cost at two priorities
cover() {
    python3 - "$1" << 'PYTHON'
import sys
n = int(sys.argv[1])
nodes = range(1, n + 1)
print("asp 1 0 0")
print("1 1", n, *nodes, "0 0")
for a in nodes:
    for step in (1, 5):
        print("1 0 0 0 2", -a, -((a - 1 + step) % n + 1))
print("2 1", n, *[word for a in nodes for word in (a, 1 + a % 3)])
print("2 0", n, *[word for a in nodes for word in (a, a * a % 7)])
for a in nodes:
    print("4", len(str(a)) + 4, f"in({a})", "1", a)
print("0")
PYTHON
}

# like NAME STATUS GIVEN WORDS: the same status, and the same bytes or, in an optimisation, the same costs
like() {
    [ "$3" = "$2" ] || fail "$1, $4: status $3, not $2: $(cat "$folder/notes")"
    case $1 in
        cover*) cmp <(grep '^O' "$folder/one") <(grep '^O' "$folder/joined") || fail "$1, $4: another cost" ;;
        *) cmp "$folder/one" "$folder/joined" || fail "$1, $4: other bytes" ;;
    esac
}

# a program aspenum that is killed in the first two runs on a part
cat > "$folder/killed" << PROGRAM
#!/usr/bin/env bash
if [ "\${1:-}" != --split ] && [ "\$(find "$folder" -name 'mark-*' | wc -l)" -lt 2 ]; then
    touch "$folder/mark-\$\$"
    kill -9 \$\$
fi
exec "$program" "\$@"
PROGRAM
chmod +x "$folder/killed"

queens 6 > "$folder/six"
queens 8 > "$folder/eight"
printf 'asp 1 0 0\n1 1 3 1 2 3 0 0\n1 0 0 0 2 1 -2\n4 1 a 1 1\n4 1 c 1 3\n6 1 -2\n0\n' > "$folder/three"
cover 24 > "$folder/cover24"
cover 31 > "$folder/cover31"

for name in six eight three cover24 cover31; do
    status=0
    "$program" < "$folder/$name" > "$folder/one" || status=$?

    # once with jobs that are killed, and once with a run that is
    rm -f "$folder"/mark-*
    given=0
    ASPENUM=$folder/killed "$solve" 13 "$folder/$name-a" -- -j 3 < "$folder/$name" > "$folder/joined" 2> "$folder/notes" || given=$?
    like "$name" "$status" "$given" "jobs killed"

    ASPENUM=$program timeout -s KILL 1 "$solve" 40 "$folder/$name-b" -- -j 1 --delay 0.1 < "$folder/$name" > /dev/null 2>&1 || true
    before=$(find "$folder/$name-b/out" -type f 2> /dev/null | wc -l)
    given=0
    ASPENUM=$program "$solve" 40 "$folder/$name-b" -- -j 4 < "$folder/$name" > "$folder/joined" 2> "$folder/notes" || given=$?
    like "$name" "$status" "$given" "run killed"
    say "$name: passed (status $status; $(wc -l < "$folder/$name-b/cubes") parts, of which $before were done before the run was killed)"
done
