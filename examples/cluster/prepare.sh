#!/usr/bin/env bash
# Makes the folder of a program's parts: `program`, the text without its last line; `cubes`, a line for each part; `part.sh`,
# which solves one. A folder that is there already is kept, so that a run can go on.
# Usage: prepare.sh PARTS FOLDER < PROGRAM.aspif     (PARTS 1 to 100000; ASPENUM names the program aspenum)
set -euo pipefail
here=$(cd "$(dirname "$0")" && pwd)
parts=$1
folder=$2

if [ -e "$folder/cubes" ]; then
    exit 0
fi
mkdir -p "$folder/out"
cat > "$folder/whole"
"${ASPENUM:-aspenum}" --split "$parts" < "$folder/whole" > "$folder/cubes.new"
# The end of the program is the line whose first field is the number 0.
LC_ALL=C awk '{ sub(/\r$/, "") } $1 ~ /^-?0+$/ { exit } { print }' "$folder/whole" > "$folder/program"
cp "$here/part.sh" "$folder/part.sh"
rm "$folder/whole"
mv "$folder/cubes.new" "$folder/cubes"
