#!/usr/bin/env bash
# The Debian package, by dpkg's own tools: build_deb.sh VERSION JOURNAL, called by `make deb`. Its bytes hang on the files in it, on SOURCE_DATE_EPOCH, which
# is the time of the last commit, and on STAKEBOOK_COMMIT, which is its name; both are asked of git where they are not given.
set -euo pipefail
cd "$(dirname "$0")/.."
version=$1 journal=$2
for part in target/bin/stakebook "$journal" bin/stake python/stakebook/__init__.py; do
    [[ -f $part ]] || { echo "deb: $part is missing, and a package has all parts (docs/INSTALL.md)" >&2; exit 1; }
done
: "${SOURCE_DATE_EPOCH:=$(git log -1 --format=%ct)}"
: "${STAKEBOOK_COMMIT:=$(git describe --always --dirty --abbrev=40 --exclude='*')}"
export SOURCE_DATE_EPOCH LC_ALL=C TZ=UTC
umask 022
architecture=$(dpkg-architecture -qDEB_HOST_ARCH)
libdir=/usr/lib/$(dpkg-architecture -qDEB_HOST_MULTIARCH)
work=target/deb
root=$work/root
rm -rf "$work"
mkdir -p "$root/DEBIAN" "$work/debian"

# Debian's folders, whatever the caller's are
env -u MAKEFLAGS -u BINDIR -u INCLUDEDIR -u MANDIR -u DOCDIR -u PYTHONDIR make --silent install DESTDIR="$PWD/$root" PREFIX=/usr LIBDIR="$libdir"
doc=$root/usr/share/doc/stakebook
mv "$doc/NOTICE" "$doc/copyright"
strip --strip-unneeded --remove-section=.comment --remove-section=.note "$root/usr/bin/journal"

# what it was made from and by, for whoever makes it again and compares
{
    printf 'commit %s\nSOURCE_DATE_EPOCH %s\n' "$STAKEBOOK_COMMIT" "$SOURCE_DATE_EPOCH"
    printf 'kit %s\n' "$(rt version 2>/dev/null || echo 'not there: the archive was given')"
    printf 'linker %s\n%s\n' "$(ld --version | sed 1q)" "$(rustc --version)"
    sha256sum target/staticlib/libcapi.a | sed 's,^\([^ ]*\) .*,sha256 of libcapi.a \1,'
} >"$doc/BUILT"

# the changelog that dpkg's tools take name and version from; what changed is told in the repository
maintainer=$(sed -n 's/^Maintainer: //p' packaging/debian/control)
{
    printf 'stakebook (%s) unstable; urgency=medium\n\n  * Version %s.\n\n' "$version" "$version"
    printf ' -- %s  %s\n' "$maintainer" "$(date -u -R -d "@$SOURCE_DATE_EPOCH")"
} >"$work/debian/changelog"
cp packaging/debian/control "$work/debian/control"
gzip -9n <"$work/debian/changelog" >"$doc/changelog.gz"
gzip -9n "$root"/usr/share/man/man*/*

# what the programs and the library link, what a program that links the library depends on, and the cache of libraries
major=${version%%.*}
echo "libstakebook $major stakebook (>= $version)" >"$root/DEBIAN/shlibs"
(cd "$work" && dpkg-shlibdeps -l"root$libdir" -Tdebian/substvars root/usr/bin/stakebook root/usr/bin/journal "root$libdir/libstakebook.so.$version")
install -m 755 packaging/debian/postinst packaging/debian/prerm "$root/DEBIAN"
install -m 644 packaging/debian/triggers "$root/DEBIAN"
(cd "$root" && find usr -type f -print0 | sort -z | xargs -0 md5sum >DEBIAN/md5sums)
(cd "$work" && dpkg-gencontrol -pstakebook -cdebian/control -ldebian/changelog -Tdebian/substvars -fdebian/files -Proot)

find "$root" -exec touch -h -d "@$SOURCE_DATE_EPOCH" {} +
# one thread, so that the compressed bytes are those of any machine
dpkg-deb --root-owner-group -Zxz -z6 --threads-max=1 --build "$root" "target/stakebook_${version}_$architecture.deb" >/dev/null
# its links would stop `rt ci`
rm -rf "$work"
echo "target/stakebook_${version}_$architecture.deb"
