#!/usr/bin/env bash
# Builds what everything outside Rattle links and runs, from the proved crates: target/staticlib/libcapi.a and target/bin/stakebook. What `rt check` has kept in
# crates/*/out is taken as it stands; else the crates are checked once more, some minutes after `rt ci` on a fresh checkout. Both run on every x86-64.
#   tools/build.sh               both
#   tools/build.sh capi          the library alone
#   tools/build.sh stakebook     the program alone
set -euo pipefail
cd "$(dirname "$0")/.."

library() {
    (cd crates/capi && rt lib --cpu x86-64)
    mkdir -p target/staticlib
    cp crates/capi/out/libcapi.a target/staticlib/
}

# `rt run` runs it too, on the crate's own input; it is here for the build
program() {
    (cd crates/stakebook && rt run --cpu x86-64 <stdin >/dev/null)
    mkdir -p target/bin
    cp crates/stakebook/out/stakebook target/bin/
}

case ${1:-all} in
all)
    library
    program
    ;;
capi) library ;;
stakebook) program ;;
*) sed -n '2,6s/^# \{0,1\}//p' "$0" >&2 && exit 2 ;;
esac
