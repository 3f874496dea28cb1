#!/bin/sh
# How fast a built program reads, beside clasp.
# usage: bench/read.sh [PROGRAM [BYTES [ATOMS]]], with python3 and GNU time at hand, and clasp if it is there.
# Without its end statement a text is read to its end and then refused, so reading alone is timed: the program must end
# with status 65. The kind smodels has the rules of the kind rules in the format of smodels. clasp has no mode that only
# reads: --pre=aspif reads, simplifies and writes. It gets the same text with its end.
set -eu
program=$(realpath "${1:-build/aspenum}")
bytes=${2:-100000000}
atoms=${3:-999999}
test -x "$program" || { echo "no program $program: make builds it" >&2; exit 1; }
room=$(mktemp -d)
trap 'rm -rf "$room"' EXIT

# make KIND: writes a text of this kind to the file of its name, without its end statement
make() {
    python3 - "$1" "$bytes" "$atoms" > "$room/$1" <<'PY'
import random, sys
kind, size, atoms = sys.argv[1], int(sys.argv[2]), int(sys.argv[3])
random.seed(1)
out = sys.stdout

def rule(head, literals):
    if kind == "rules":
        return "1 0 1 %d 0 %d%s\n" % (head, len(literals), "".join(" %d" % l for l in literals))
    negative = [-l for l in literals if l < 0]
    atoms = negative + [l for l in literals if l > 0]
    return "1 %d %d %d%s\n" % (head, len(atoms), len(negative), "".join(" %d" % a for a in atoms))

if kind != "smodels":
    out.write("asp 1 0 0\n")
if kind == "blank_lines":
    out.write("\n" * size)
elif kind == "comment":
    out.write("10 " + "x" * size + "\n")
elif kind == "one_line":
    count = min(size // 7, 16_777_216)
    out.write("1 0 0 0 %d" % count)
    for _ in range(count // 1000):
        out.write("".join(" %d" % (random.randint(1, atoms) * random.choice((1, -1))) for _ in range(1000)))
    out.write(" 1" * (count % 1000) + "\n")
else:
    written = counted = 0
    while written < size and counted < 16_700_000:
        rules = []
        for _ in range(10_000):
            literals = [random.randint(1, atoms) * random.choice((1, -1)) for _ in range(random.randint(0, 5))]
            rules.append(rule(random.randint(1, atoms), literals))
            counted += 1 + len(literals)
        text = "".join(rules)
        written += len(text)
        out.write(text)
PY
}

# timed NAME STATUS COMMAND..: runs the command over the text on standard input, and prints its time, the processor time
# of it, the rate by the processor time, and its memory
timed() {
    name=$1
    wanted=$2
    shift 2
    status=0
    /usr/bin/time -o "$room/took" -f '%e %U %S %M' "$@" < "$room/text" > /dev/null 2> "$room/notes" || status=$?
    if [ "$wanted" != any ] && [ "$status" -ne "$wanted" ]; then
        echo "$name: status $status, wanted $wanted" >&2
        cat "$room/notes" >&2
        exit 1
    fi
    tail -n 1 "$room/took" | awk -v name="$name" -v size="$(wc -c < "$room/text")" \
        '{ cpu = $2 + $3; printf "%-14s %6.2f s, %6.2f s of processor time, %6.1f MB/s, %6.1f MiB\n", name, $1, cpu, size / 1e6 / (cpu > 0 ? cpu : 0.01), $4 / 1024 }'
}

for kind in rules smodels comment one_line blank_lines; do
    make "$kind"
    mv "$room/$kind" "$room/text"
    case $kind in
        smodels) timed "$kind" 65 "$program" --format smodels ;;
        *) timed "$kind" 65 "$program" ;;
    esac
    command -v clasp > /dev/null || continue
    case $kind in
        rules) echo 0 >> "$room/text" ;;
        smodels) printf '%s\n' 0 0 B+ 0 B- 0 1 >> "$room/text" ;;
        *) continue ;;
    esac
    timed "clasp: $kind" any clasp --pre=aspif
done
