#!/usr/bin/env bash
# What `make`, `make install` and `make deb` make, in folders of its own: exported symbols beside the header's functions; consumers in C and C++ that are built
# by pkg-config alone in an empty folder, shared and static, and print what the documents and the judge have; versions; manual pages; the Debian package
# installed into a root of its own; and a second build in another folder, whose bytes are the same. It needs the proved archive and programs, which
# `tools/build.sh` makes.
set -euo pipefail
cd "$(dirname "$0")/.."
export LC_ALL=C
work=$(mktemp -d)
trap 'wait; rm -rf "$work"' EXIT
begun=$SECONDS

fail() {
    echo "install: $1"
    exit 1
}

# what is wrong where two files differ; the file with what is expected, and the one with what there is
same() {
    diff "$2" "$3" >"$work/difference" || { head -n 20 "$work/difference"; fail "$1"; }
}

# the example of a manual page, as it is typed
example() { sed -n '/^\.SH EXAMPLES/,$ { /^\.EX$/,/^\.EE$/ { /^\.E[XE]$/d; s/\\-/-/g; s/\\(aq/'\''/g; s/\\e/\\/g; p } }' "packaging/man/$1"; }

# for both builds, one of which has no repository
export SOURCE_DATE_EPOCH=${SOURCE_DATE_EPOCH:-$(git log -1 --format=%ct)}
export STAKEBOOK_COMMIT=${STAKEBOOK_COMMIT:-$(git describe --always --dirty --abbrev=40 --exclude='*')}
make --silent all journal
version=$(sed -n 's/^#define STAKEBOOK_VERSION "\(.*\)"$/\1/p' include/stakebook.h)
soname=libstakebook.so.${version%%.*}
numbers=$(printf '#include "include/stakebook.h"\nSTAKEBOOK_VERSION_MAJOR.STAKEBOOK_VERSION_MINOR.STAKEBOOK_VERSION_PATCH\n' | cc -E -P -x c - | tail -n 1 | tr -d ' ')
[[ $numbers == "$version" ]] || fail "the header's version is $version, and its three numbers are $numbers"

# ---- a second build, beside what follows: in another folder, with other permissions, time zone and language

other=$work/another/folder
mkdir -p "$other/target/staticlib" "$other/target/bin"
git ls-files -z --cached --others --exclude-standard | tar -c --null --files-from=- | tar -x -C "$other"
cp target/staticlib/libcapi.a "$other/target/staticlib"
cp target/bin/stakebook "$other/target/bin"
(umask 077 && cd "$other" && TZ=Pacific/Auckland LC_ALL=C.UTF-8 make --silent deb) >"$work/second" 2>&1 &
second=$!

# ---- symbols

# What the header declares, as the compiler says it, and not as the list was made by which the library is built.
cc -x c -std=c99 -fsyntax-only -aux-info "$work/declared" - <<<'#include "include/stakebook.h"'
sed -n 's,^/\* include/stakebook\.h:[^*]*\*/ extern .*\b\(stakebook_[a-z0-9_]*\) (.*,\1,p' "$work/declared" | sort >"$work/header"

# globals that a file defines; the shared library's have the name of their version behind them, and the version itself is none
defined() {
    nm --defined-only --format=posix "$@" | awk 'NF > 1 && $2 != "A" { sub(/@.*/, "", $1); print $1 }' | sort
}
defined --extern-only target/staticlib/libcapi.a >"$work/proved"
same "the header declares other functions than the proved archive has" "$work/header" "$work/proved"
defined --extern-only target/lib/libstakebook.a >"$work/static"
same "libstakebook.a exports other symbols than the header declares" "$work/header" "$work/static"
defined --dynamic target/lib/libstakebook.so >"$work/shared"
same "libstakebook.so exports other symbols than the header declares" "$work/header" "$work/shared"
nm --undefined-only --format=posix target/lib/libstakebook.a | awk '$2 == "U" { print $1 }' | sort >"$work/asked"
same "libstakebook.a asks for other functions than the C library's three" <(printf 'memcpy\nmemmove\nmemset\n') "$work/asked"
[[ $(readelf -dW target/lib/libstakebook.so) == *"soname: [$soname]"* ]] || fail "the soname is not $soname"
echo "install: $(wc -l <"$work/header") functions are exported, those of the header"

# ---- an installation, and consumers in an empty folder

prefix=/opt/stakebook
root=$work/root
make --silent install PREFIX=$prefix DESTDIR="$root" 2>"$work/left_out"
same "an installation leaves programs out" /dev/null "$work/left_out"
[[ $(cd "$root" && find . -maxdepth 2 -mindepth 2) == "./opt/stakebook" ]] || fail "something is installed outside $prefix"
for link in libstakebook.so:$soname $soname:libstakebook.so.$version; do
    [[ $(readlink "$root$prefix/lib/${link%:*}") == "${link#*:}" ]] || fail "${link%:*} is no link to ${link#*:}"
done
cmp include/stakebook.h "$root$prefix/include/stakebook.h"

mkdir "$work/empty"
cp packaging/consumers/consumer.c packaging/consumers/consumer.cpp examples/c/season.c examples/c/printed.h "$work/empty"
# the example of the manual page: a line through two samples
example stakebook.3 >"$work/empty/page.c"

# The consumers' answers: those of docs/JOURNAL.md, of the header's words on a split, and of the judge. Where a document changes, so must `expected`.
grep -qxF 'coefficients 3FF0000000000000 4000000000000000 0000000000000000' docs/JOURNAL.md || fail "docs/JOURNAL.md has another example"
grep -qF 'answered is 3, with -113.35496093152223 (30 tests; a limit of 29 gives 16)' include/stakebook.h || fail "the header has another example of a split"
echo '1 + 2 x' >"$work/line"

# Builds and runs the consumers against what is installed under a root, whose libraries lie in a folder of it: shared, static or both.
consumers() {
    local lib=$1/$2 how
    export PKG_CONFIG_SYSROOT_DIR=$1 PKG_CONFIG_LIBDIR=$lib/pkgconfig PKG_CONFIG_ALLOW_SYSTEM_CFLAGS=1 PKG_CONFIG_ALLOW_SYSTEM_LIBS=1
    [[ $(pkg-config --modversion stakebook) == "$version" ]] || fail "pkg-config has another version than the header, $version"
    for how in "${@:3}"; do
        (
            cd "$work/empty"
            if [[ $how == static ]]; then flags="-static $(pkg-config --static --cflags --libs stakebook)"; else flags=$(pkg-config --cflags --libs stakebook); fi
            # shellcheck disable=SC2086
            for name in consumer season page; do cc -std=c99 -pedantic -Wall -Wextra -Werror "$name.c" $flags -o "$name" & done
            # shellcheck disable=SC2086
            c++ -std=c++11 -pedantic -Wall -Wextra -Werror consumer.cpp $flags -o consumer_in_cpp &
            for _ in 1 2 3 4; do wait -n || exit 1; done
        ) || fail "a consumer was not built, $how"
        for name in consumer consumer_in_cpp season page; do
            [[ $how == static || $(readelf -dW "$work/empty/$name") == *"[$soname]"* ]] || fail "$name does not ask for $soname"
            if [[ $how == static ]]; then "$work/empty/$name" >"$work/$name"; else LD_LIBRARY_PATH=$lib "$work/empty/$name" >"$work/$name"; fi
            rm "$work/empty/$name"
        done
        same "the consumer in C, $how, has other answers" packaging/consumers/expected "$work/consumer"
        same "the consumer in C++, $how, has other answers" packaging/consumers/expected "$work/consumer_in_cpp"
        same "the season in C, $how, is not as the judge's" examples/c/season.answers "$work/season"
        same "the manual page's example, $how, prints something else" "$work/line" "$work/page"
    done
}
consumers "$root" $prefix/lib shared static
echo "install: consumers in C and C++, shared and static, answer as the documents and the judge"

# ---- the Debian package: built, and installed into a root of its own

make --silent deb >/dev/null
package=stakebook_${version}_$(dpkg --print-architecture).deb
field() { dpkg-deb --field "target/$package" "$1"; }
[[ $(field Version) == "$version" ]] || fail "the package's version is not the header's, $version"
[[ $(field Depends) == *"libc6 (>= "* && $(field Depends) == *"python3 (>= 3.8)"* ]] || fail "the package depends on $(field Depends)"
[[ $(field Recommends) == "python3-numpy, python3-matplotlib" ]] || fail "the package recommends $(field Recommends)"

# Where this runs as root, dpkg itself installs and removes it. What it depends on is not in that root, and its scripts do nothing there.
debian=$work/debian
mkdir -p "$debian/var/lib/dpkg/info" "$debian/var/lib/dpkg/updates"
touch "$debian/var/lib/dpkg/status"
dpkg_there() { dpkg --root="$debian" --log=/dev/null --force-depends --force-script-chrootless "$@" >"$work/dpkg" 2>&1 || { cat "$work/dpkg"; fail "dpkg $1"; }; }
if [[ $(id -u) == 0 ]]; then
    dpkg_there --install "target/$package"
    dpkg_there --verify stakebook
    [[ ! -s $work/dpkg ]] || { cat "$work/dpkg"; fail "files are not as the package has them"; }
else
    dpkg-deb --extract "target/$package" "$debian"
fi
libdir=usr/lib/$(dpkg-architecture -qDEB_HOST_MULTIARCH)
find "$debian/usr" ! -type l \( -perm /022 -o ! -perm -444 \) >"$work/modes"
same "files of the package that not all can read, or others can write" /dev/null "$work/modes"
dpkg-deb --contents "target/$package" | awk '$2 != "root/root"' >"$work/owners"
same "files of the package that are not root's" /dev/null "$work/owners"
consumers "$debian" "$libdir" shared
echo "install: $package is installed in a root of its own, and its consumers answer the same"

# ---- programs and manual pages, as they were installed

export MANWIDTH=80
find "$debian/usr/bin" -type f -printf '%f\n' | sort >"$work/programs"
find "$debian/usr/share/man/man1" -type f -printf '%f\n' | sed 's/\.1\.gz$//' | sort >"$work/pages"
same "programs and manual pages are not the same" "$work/programs" "$work/pages"
for page in "$debian"/usr/share/man/man*/*.gz; do
    name=$(basename "$page" .gz)
    gzip -dc "$page" >"$work/$name"
    { groff -man -ww -z -Tutf8 "$work/$name"; man --warnings --local-file "$work/$name" >"$work/seen"; } 2>&1 | head -n 20 >"$work/warnings"
    same "the manual page $name has warnings" /dev/null "$work/warnings"
    lexgrog "$work/$name" >/dev/null || fail "the manual page $name has no name that apropos finds"
    grep -qF "stakebook $version" "$work/seen" || fail "the manual page $name does not name version $version"
done
# the page of the library has each function and each refusal's words
gzip -dc "$debian/usr/share/man/man3/stakebook.3.gz" >"$work/page"
grep -o '^\.BR\? stakebook_[a-z0-9_]*' "$work/page" | sed 's/.* //' | sort -u | comm -23 "$work/header" - >"$work/missing"
same "functions that stakebook(3) does not name" /dev/null "$work/missing"
MANWIDTH=4000 man --local-file "$work/stakebook.3" | grep -oE '^ +[0-9]+ +[a-z].*' | sed -E 's/^ +([0-9]+) +/\1\t/' >"$work/refusals"
same "stakebook(3) has other words for the refusals" include/refusals.txt "$work/refusals"

"$debian/usr/bin/stakebook" <crates/stakebook/stdin >"$work/listing"
same "the installed stakebook has another listing" crates/stakebook/stdout "$work/listing"
"$debian/usr/bin/journal" <examples/c/season.calls >"$work/season"
same "the installed journal is not as the judge" examples/c/season.answers "$work/season"

# the examples of their pages: the mean by weights of 0 and 4 is 3, and the journal's answers stand below its prompt
by_hand() { PATH=$debian/usr/bin:$PATH bash -e -c "$1"; }
by_hand "$(example stakebook.1)" | sed -n 's/^\(n\|degree\|c 0\) \([0-9A-F]*\).*/\2/p' >"$work/listing"
same "the example of stakebook(1) prints something else" <(printf '2\n0\n4008000000000000\n') "$work/listing"
by_hand "$(example journal.1 | sed -n 's/^\$ //p')" >"$work/listing"
same "the example of journal(1) prints something else" <(example journal.1 | sed '/^\$ /d') "$work/listing"

# stake(1) has the commands and options that the installed command itself has, and no others
export PYTHONDONTWRITEBYTECODE=1
"$debian/usr/bin/stake" --help | sed -n '/^commands:/,/^$/ s/^    \([a-z][a-z-]*\)\( .*\)\{0,1\}$/\1/p' | sort >"$work/commands"
sed 's/\\-/-/g' packaging/man/stake.1 | sed -n '/^\.SH COMMANDS/,/^\.SH OPTIONS/ s/^\.B \([a-z][a-z-]*\) .*/\1/p' | sort >"$work/described"
same "stake(1) describes other commands than stake has" "$work/commands" "$work/described"
PYTHONPATH=$debian/usr/lib/python3/dist-packages /usr/bin/python3 -c '
import sys
from stakebook.command import main
for command in sys.stdin.read().split():
    try:
        main([command, "--help"])
    except SystemExit:
        pass
' <"$work/commands" | grep -oE -- '--[a-z][a-z-]*' | sort -u >"$work/options"
sed 's/\\-/-/g' packaging/man/stake.1 | grep -oE -- '--[a-z][a-z-]*' | sort -u >"$work/described"
same "stake(1) describes other options than stake has" "$work/options" "$work/described"

# its example, from a CSV file to a page, in an empty folder
mkdir "$work/pit"
cp examples/pit.csv "$work/pit"
example=$(example stake.1)
(cd "$work/pit" && by_hand "$example") >"$work/report" 2>&1 || { cat "$work/report"; fail "the example of stake(1) does not run"; }
[[ -s $work/pit/pit.season && -s $work/pit/pit.html ]] || fail "the example of stake(1) makes no season or no page"

# the Python package, by Debian's own Python and its standard library alone: the line through (0, 1) and (1, 3)
line='import sys, stakebook; b = stakebook.Book(); b.add(0, 1); b.add(1, 3); sys.exit(list(b.fit(1).coefficients) != [1, 2])'
for python in "$root$prefix" "$debian/usr"; do
    PYTHONPATH=$python/lib/python3/dist-packages /usr/bin/python3 -S -c "$line" || fail "the installed Python package has another line"
done
echo "install: programs, Python and $(find "$debian/usr/share/man" -type f | wc -l) manual pages are in order"

if [[ $(id -u) == 0 ]]; then
    dpkg_there --purge stakebook
    find "$debian" ! -type d ! -path "$debian/var/lib/dpkg/*" >"$work/left"
    same "files that the removed package left" /dev/null "$work/left"
fi

# ---- the second build

wait "$second" || { cat "$work/second"; fail "the build in another folder failed"; }
for file in lib/libstakebook.a "lib/libstakebook.so.$version" "$package"; do
    cmp "target/$file" "$other/target/$file" || fail "$file has other bytes when built in another folder"
done
echo "install: a second build in another folder has the same bytes"
(cd target && sha256sum staticlib/libcapi.a lib/libstakebook.a "lib/libstakebook.so.$version" "$package")
echo "install: $((SECONDS - begun)) s"
