#!/usr/bin/env bash
# Packs what `make install` installs as build/aspenum_VERSION_ARCHITECTURE.deb. `make deb` calls it once the program is built.
# The package's version is that of the program, packaging/changelog has to begin with it.
set -euo pipefail
cd "$(dirname "$0")/.."
umask 022

version=$(build/aspenum --version | cut -d ' ' -f 2)
if [ "$(sed -n '1s/^aspenum (\([^)]*\)).*/\1/p' packaging/changelog)" != "$version" ]; then
    echo "deb: packaging/changelog doesn't begin with version $version" >&2
    exit 1
fi
command -v strip > /dev/null || { echo "deb: the command strip is missing: Debian's package binutils has it" >&2; exit 1; }
architecture=$(dpkg --print-architecture)
package=build/aspenum_${version}_$architecture.deb

root=$(mktemp -d)
trap 'rm -rf "$root"' EXIT
chmod 755 "$root"
# The program is built already, and make isn't to look whether its proofs are newer.
make -s install -o build/aspenum -o build/aspcheck DESTDIR="$root" PREFIX=/usr
# (aspground is a script)
binaries=(usr/bin/aspenum)
[ ! -e "$root/usr/bin/aspcheck" ] || binaries+=(usr/bin/aspcheck)
(cd "$root" && strip --strip-all --remove-section=.comment "${binaries[@]}")
find "$root/usr/share/man" -type f -exec gzip -9n {} +

doc=$root/usr/share/doc/aspenum
install -d "$doc/examples/cluster" "$root/DEBIAN"
install -m 644 packaging/copyright "$doc"
gzip -9nc packaging/changelog > "$doc/changelog.gz"
install -m 644 examples/*.* "$doc/examples"
install -m 644 examples/cluster/README.md "$doc/examples/cluster"
install -m 755 examples/cluster/*.sh examples/cluster/*.py "$doc/examples/cluster"

# What the program is linked to, as Debian's own tool tells it where it is there.
depends="libc6, libgcc-s1"
if command -v dpkg-shlibdeps > /dev/null; then
    mkdir "$root/debian"
    printf 'Source: aspenum\n\nPackage: aspenum\nArchitecture: any\n' > "$root/debian/control"
    depends=$(cd "$root" && dpkg-shlibdeps -O "${binaries[@]}" 2> /dev/null | sed 's/^shlibs:Depends=//')
    rm -r "$root/debian"
fi

size=$(du -sk --exclude=DEBIAN "$root" | cut -f 1)
sed -e "s/@VERSION@/$version/" -e "s/@ARCHITECTURE@/$architecture/" -e "s/@DEPENDS@/$depends/" -e "s/@SIZE@/$size/" \
    packaging/control > "$root/DEBIAN/control"
(cd "$root" && find usr -type f -print0 | LC_ALL=C sort -z | xargs -0 md5sum > DEBIAN/md5sums)
# the same program packs to the same bytes
SOURCE_DATE_EPOCH=$(date -d "$(sed -n '/^ -- /{s/.*>  //p;q}' packaging/changelog)" +%s)
export SOURCE_DATE_EPOCH
dpkg-deb --root-owner-group -Zxz --build "$root" "$package" > /dev/null
echo "$package"
