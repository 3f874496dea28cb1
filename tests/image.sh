#!/usr/bin/env bash
# Builds the image of packaging/Dockerfile from the package of `make deb`, on a Debian that debootstrap makes, and runs in it
# what README.md and packaging/README.md show. It needs root, buildah, debootstrap and a network, and takes some minutes: it
# isn't in the gate.
# Usage: [ROOT=FOLDER] tests/image.sh     (ROOT names a tree that debootstrap made: it isn't changed)
set -euo pipefail
cd "$(dirname "$0")/.."
fail() { echo "image: failed: $*"; exit 1; }

ls build/aspenum_*.deb > /dev/null 2>&1 || make -s deb
folder=$(mktemp -d)
builder() { buildah --root "$folder/storage" --runroot "$folder/run" --storage-driver vfs "$@"; }
export BUILDAH_ISOLATION=chroot
trap 'builder umount --all > /dev/null 2>&1; rm -rf "$folder"' EXIT
root=${ROOT:-$folder/root}
[ -n "${ROOT:-}" ] || debootstrap --variant=minbase stable "$root" > "$folder/log" 2>&1 || { tail -n 5 "$folder/log"; fail "debootstrap"; }

base=$(builder from scratch)
cp -a "$root/." "$(builder mount "$base")/"
builder commit -q "$base" docker.io/library/debian:stable-slim > /dev/null
builder bud -q --pull=false -t aspenum -f packaging/Dockerfile build > "$folder/log" 2>&1 || { tail -n 5 "$folder/log"; fail "the image"; }
box=$(builder from --pull=false localhost/aspenum)

# runs STATUS COMMAND..: the lines that a command of the image writes, which has to end with this status
runs() {
    local wanted=$1 status=0
    shift
    builder run "$box" -- "$@" 2> "$folder/told" || status=$?
    [ "$status" -eq "$wanted" ] || { cat "$folder/told"; fail "$* ended with $status"; }
}

sed -n '/^\$ \(gringo\|build\/aspground\) examples\/colouring/,/^```$/p' README.md | sed '1d;$d' > "$folder/wanted"
runs 30 aspground < examples/colouring.lp | cmp - "$folder/wanted" || fail "README's first screen"
echo '{a(1..n)}. #const n=2.' | runs 11 aspground - -c n=3 -- --models 1 | grep -qx 'Models: 1+' || fail "options"
runs 30 aspenum < examples/two_rules.aspif | cmp - examples/two_rules.out || fail "aspenum by itself"
[ "$(runs 0 id -un)" = nobody ] || fail "the user"
echo "image: passed"
