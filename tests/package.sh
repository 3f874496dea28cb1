#!/usr/bin/env bash
# Tries what is installed: `make install` and `make uninstall` in a folder, and the package of `make deb`, by lintian and in a
# clean root of Debian, where it is installed, run on its own examples and the README's first one, and removed. It needs root,
# lintian, debootstrap and a network (ROOT may name a tree that debootstrap made: it isn't changed, but copied), and takes some
# minutes: it isn't in the gate.
# Usage: [ROOT=FOLDER] tests/package.sh
set -euo pipefail
cd "$(dirname "$0")/.."
say() { echo "package: $*"; }
fail() { say "failed: $*"; exit 1; }

make -s
# `make` looks at most once whether the program is proved.
make="make -s -o build/aspenum -o build/aspcheck"

folder=$(mktemp -d)
trap 'rm -rf "$folder"' EXIT
$make install DESTDIR="$folder/to" PREFIX=/usr/local > /dev/null
cmp build/aspenum "$folder/to/usr/local/bin/aspenum"
for page in aspenum aspcheck aspground; do
    MANPATH=$folder/to/usr/local/share/man man -w $page > /dev/null || fail "the manual of $page isn't found"
done
$make uninstall DESTDIR="$folder/to" PREFIX=/usr/local > /dev/null
[ -z "$(find "$folder/to" ! -type d)" ] || fail "uninstall leaves $(find "$folder/to" ! -type d)"
say "install, uninstall: passed"

package=$($make deb)
first=$(sha256sum < "$package")
package=$($make deb)
[ "$first" = "$(sha256sum < "$package")" ] || fail "the package isn't the same twice"
lintian --allow-root --fail-on error,warning "$package" || fail "lintian"
say "lintian: passed"

root=$folder/root
if [ -n "${ROOT:-}" ]; then cp -a "$ROOT" "$root"; else debootstrap --variant=minbase stable "$root" > "$folder/log" 2>&1 || { tail -n 5 "$folder/log"; fail "debootstrap"; }; fi
cp "$package" "$root/package.deb"
in_root() { chroot "$root" /usr/bin/env -i PATH=/usr/sbin:/usr/bin:/sbin:/bin "$@"; }
in_root dpkg -i /package.deb > "$folder/log" 2>&1 || { cat "$folder/log"; fail "dpkg -i"; }
[ "$(in_root aspenum --version)" = "$(build/aspenum --version)" ] || fail "the version"
# each example is the text itself and what is written, with the words that stand beside it
in_root sh -c 'cd /usr/share/doc/aspenum/examples && for it in *.aspif *.smodels; do words=$(cat "${it%.*}.words" 2> /dev/null); aspenum --format "${it##*.}" $words < "$it" | cmp -s - "${it%.*}.out" || { echo "$it"; exit 1; }; done' || fail "an example"
# the README's first screen, by the package and Debian's gringo alone
in_root sh -c 'apt-get update && apt-get install -y --no-install-recommends gringo' > "$folder/log" 2>&1 || { tail -n 5 "$folder/log"; fail "gringo"; }
sed -n '/^\$ \(gringo\|build\/aspground\) examples\/colouring/,/^```$/p' README.md | sed '1d;$d' > "$folder/wanted"
in_root sh -c 'cd /usr/share/doc/aspenum && gringo examples/colouring.lp | aspenum; true' | cmp - "$folder/wanted" || fail "the README's first screen"
in_root sh -c 'cd /usr/share/doc/aspenum && aspground examples/colouring.lp; true' | cmp - "$folder/wanted" || fail "aspground"
in_root dpkg -V aspenum || fail "dpkg -V"
in_root dpkg -P aspenum > "$folder/log" 2>&1 || { cat "$folder/log"; fail "dpkg -P"; }
left=$(find "$root/usr" -name '*aspenum*' -o -name 'aspcheck*' -o -name 'aspground*')
[ -z "$left" ] || fail "removing leaves $left"
say "in a clean root: passed"
