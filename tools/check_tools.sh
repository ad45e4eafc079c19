#!/usr/bin/env bash
# The programs that the gate runs, with their versions: a line for each that is missing or too old. It installs nothing.
set -euo pipefail
cd "$(dirname "$0")/.."
found=()
wrong=0

refuse() {
    echo "tools: $1"
    wrong=1
}

# a program, the least version ('' for any), and where Debian has it
needs() {
    local name=$1 least=$2 where=$3 version=''
    local asked=${least:+, and $least or newer is needed}
    command -v "$name" >/dev/null || { refuse "$name is missing$asked: $where"; return; }
    if [[ $("$name" --version 2>/dev/null || true) =~ [0-9]+(\.[0-9]+)+ ]]; then version=${BASH_REMATCH[0]}; fi
    if [[ -z $version || $(printf '%s\n' "$version" "${least:-0}" | sort -V | head -n 1) != "${least:-0}" ]]; then
        refuse "$name is ${version:-of no version}$asked: $where"
        return
    fi
    found+=("$name $version")
}

# the kit that README names, or a variant of it
kit=$(sed -n 's/.*`rt version`: \(rattle-kit-[0-9a-z]*\).*/\1/p' README.md)
[[ -n $kit ]] || refuse "README.md names no kit"
if command -v rt >/dev/null; then
    id=$(rt version 2>/dev/null | cut -d ' ' -f 1) || id=''
    case $id in
    "$kit" | "$kit"-*) found+=("rt $id") ;;
    *) refuse "rt is ${id:-of no version}, and $kit is needed: Debian has no package of it" ;;
    esac
else
    refuse "rt is missing, and $kit is needed: Debian has no package of it"
fi

# What Cargo.toml asks for: polyfit's text (reference/, and so compare/) needs 1.87, the other folders keep to 1.63. The gate runs all of them.
rust=$(sed -n 's/^rust-version = "\(.*\)"$/\1/p' ./*/Cargo.toml | sort -V | tail -n 1)
[[ -n $rust ]] || refuse "no Cargo.toml has a rust-version"
needs rustc "$rust" "Debian's package rustc, or rustup where that one is older"
needs cargo "$rust" "Debian's package cargo, or rustup where that one is older"
needs python3 3.8 "Debian's package python3"
needs cc '' "Debian's packages gcc and libc6-dev"
needs make '' "Debian's package make"
needs git '' "Debian's package git"

[[ $wrong == 0 ]] || exit 1
printf -v line '%s, ' "${found[@]}"
echo "tools: ${line%, }"
