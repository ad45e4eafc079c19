#!/usr/bin/env bash
# The C interface: the static library, the C examples against the judge's answers, checks in C of what no list of calls reaches (frames read sample by
# sample, a window, a replay, the calls of two columns, a book carried over from them, the stakes of a season), and the Rust wrapper's tests.
set -euo pipefail
cd "$(dirname "$0")/.."
tools/build.sh capi | tail -n 1

# the judge still prints the committed answers, and the C examples print them too
make --silent --always-make -C examples/c
for example in season update surface; do
    cargo run --release --quiet -p journal -- --judge <"examples/c/$example.calls" | cmp - "examples/c/$example.answers"
    "target/$example" | cmp - "examples/c/$example.answers"
    echo "C example $example: as the judge"
done
target/interface

cargo test --release --quiet -p stakebook-rs
