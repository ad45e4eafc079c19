#!/bin/sh
# The functions that a C header declares and does not define, one a line, sorted: what libstakebook exports.
set -eu
# A declaration ends in ;, a definition in }. Those of stdint.h and stddef.h have other names; a static function is the header's own.
functions=$("${CC:-cc}" -E -P -x c "$1" | tr '\n' ' ' | tr ';}' '\n\n' |
    sed -n -e '/\bstatic\b/d' -e 's/^[^(]*\b\(stakebook_[A-Za-z0-9_]*\) *([^{]*) *$/\1/p' | LC_ALL=C sort)
[ -n "$functions" ] || { echo "$1 declares no function" >&2; exit 1; }
echo "$functions"
