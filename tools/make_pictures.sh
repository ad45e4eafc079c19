#!/usr/bin/env bash
# Makes the pictures of docs/pictures anew, by the five lines at the top of README.md and the lines on a surface in docs/STAKE.md, with a fixed time, so
# that they come out the same again where matplotlib is the same. python/tests/test_pictures.py compares them.
#   tools/make_pictures.sh          into docs/pictures
#   tools/make_pictures.sh FOLDER   into another folder
set -euo pipefail
cd "$(dirname "$0")/.."
root=$PWD
folder=$(realpath "${1:-docs/pictures}")
work=$(mktemp -d)
trap 'rm -rf "$work"' EXIT
awk '/^```sh$/ { inside = 1; next } /^```$/ { if (inside) exit } inside' README.md >"$work/lines"
if [[ $(wc -l <"$work/lines") != 5 ]] || grep -qv '^bin/stake ' "$work/lines"; then
    echo "README.md does not begin with five lines of bin/stake" >&2
    exit 1
fi
ln -s "$root/bin" "$root/examples" "$work"
cd "$work"
# noon of the day on which the pit was made up
SOURCE_DATE_EPOCH=1713355200 bash -euo pipefail lines >&2
cp pit.svg pit.html "$folder"
# a library of an earlier version has no surfaces, and no picture of one is made
if PYTHONPATH=$root/python /usr/bin/python3 -c 'from stakebook._library import library; raise SystemExit(library().surface_band is None)'; then
    awk '/^## Depth and elevation/ { there = 1 } there && /^```sh$/ { inside = 1; next } /^```$/ { if (inside) exit } inside' "$root/docs/STAKE.md" >surface
    PATH=$root/bin:$PATH SOURCE_DATE_EPOCH=1713355200 bash -euo pipefail surface >&2
    cp glacier.svg "$folder"
fi
