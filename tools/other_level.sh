#!/usr/bin/env bash
# other_level.sh LEVEL: the proved library compiled for another level of x86-64, as x86-64-v3, to target/LEVEL/libcapi.a. For measuring alone: no such
# library is packaged (docs/DECISIONS.md, "One level of instructions").
set -euo pipefail
cd "$(dirname "$0")/.."
level=${1:?usage: tools/other_level.sh LEVEL, as x86-64-v3}
(cd crates/capi && rt lib --cpu "$level")
mkdir -p "target/$level"
cp crates/capi/out/libcapi.a "target/$level/"
echo "target/$level/libcapi.a: STAKEBOOK_LIB_DIR=\$PWD/target/$level cargo run --release -p compare -- --lists 2000 --calls 2000 holds it against the judge"
