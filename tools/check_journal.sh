#!/usr/bin/env bash
# Runs the lists of tests/ by the proved library and by the judge, and compares what is printed with the answers there, byte for byte. It needs
# the static library, which tools/check_capi.sh builds.
set -euo pipefail
cd "$(dirname "$0")/.."
printed=$(mktemp)
trap 'rm -f "$printed"' EXIT

# a list, and the program's flags
check() {
    local list=$1
    shift
    cargo run --release --quiet -p journal -- "$@" <"tests/$list.calls" >"$printed" || { echo "journal $*: $list ended with $?"; exit 1; }
    cmp "$printed" "tests/$list.answers"
}

for list in edges season lines weights split windows losses scores surface groups glacier fixed; do
    check "$list"
    check "$list" --judge
    echo "journal: $list agrees, by the library and by the judge"
done
