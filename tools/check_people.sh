#!/usr/bin/env bash
# The people's layer: the tests of the Python package, of `stake`, of the pictures and of the page, which is opened in a headless browser. It needs the
# proved library, by STAKEBOOK_LIBRARY or in target/lib, where `make` puts it, and installs nothing.
#   tools/check_people.sh            all files of python/tests
#   tools/check_people.sh book page  test_book.py and test_page.py alone
set -euo pipefail
cd "$(dirname "$0")/.."
python=/usr/bin/python3 # Debian's own: another one on the path need not have Debian's numpy and matplotlib
log=$(mktemp)
trap 'rm -f "$log"' EXIT

wrong=0
missing() {
    echo "people: $1 is missing: Debian's package $2 (tools/install_needed.sh installs it)"
    wrong=1
}
[[ -x $python ]] || missing "$python" python3
for module in numpy matplotlib; do
    "$python" -c "import $module" 2>/dev/null || missing "$module" "python3-$module"
done
command -v chromium-headless-shell chromium >/dev/null || missing "a browser" chromium-headless-shell
for program in pdftotext pdfinfo; do
    command -v "$program" >/dev/null || missing "$program" poppler-utils
done
[[ $wrong == 0 ]] || exit 1

# what was proved, as a shared library
if [[ -z ${STAKEBOOK_LIBRARY:-} ]]; then make --silent target/lib/libstakebook.so; fi

if [[ $# == 0 ]]; then
    files=(python/tests/test_*.py)
else
    files=("${@/#/python/tests/test_}")
    files=("${files[@]/%/.py}")
fi
export PYTHONDONTWRITEBYTECODE=1
all=0
for file in "${files[@]}"; do
    begun=$SECONDS
    name=$(basename "$file")
    if ! "$python" -m unittest discover -s python/tests -t python/tests -p "$name" >"$log" 2>&1; then
        cat "$log"
        echo "people: $name failed"
        exit 1
    fi
    # a file in which nothing ran, or in which something was passed over, has not been seen to be right
    ran=$(sed -n 's/^Ran \([0-9]*\) tests\{0,1\} in .*/\1/p' "$log" | tail -n 1)
    if [[ ${ran:-0} == 0 ]] || grep -q '^OK (.*skipped=' "$log"; then
        cat "$log"
        echo "people: $name ran ${ran:-0} tests, or skipped one"
        exit 1
    fi
    all=$((all + ran))
    echo "people: $name, $ran tests: $((SECONDS - begun)) s"
done
echo "people: $all tests in ${#files[@]} files passed in $SECONDS s"
