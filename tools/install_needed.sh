#!/usr/bin/env bash
# Installs what is missing of the Debian packages that the gate, `make` and all tests need, and nothing that is there. As root, or by sudo.
#   tools/install_needed.sh          installs what is missing
#   tools/install_needed.sh --check  installs nothing, and fails with the names of what is missing
#   tools/install_needed.sh --list   prints all names
# Rattle's kit is in no Debian package; tools/check_tools.sh says whether it, cargo and rustc are there and new enough.
set -euo pipefail
cd "$(dirname "$0")/.."

needed=(
    # the gate: its scripts, the C example, the Python tools
    bash git make gcc libc6-dev python3
    # the library, its package and what checks them: a C++ consumer, pkg-config, dpkg's tools, manual pages
    binutils g++ pkg-config dpkg-dev gzip xz-utils man-db groff-base
    # arrays without a copy, and the pictures
    python3-numpy python3-matplotlib
    # the tests of the pictures: a browser without a window, and what reads a PDF
    chromium-headless-shell poppler-utils
)
# another package that does as well where it is there
declare -A instead=([chromium-headless-shell]=chromium [pkg-config]=pkgconf)

installed() { [[ $(dpkg-query --show --showformat='${db:Status-Status}' "$1" 2>/dev/null || true) == installed ]]; }

missing=()
for package in "${needed[@]}"; do
    installed "$package" || { [[ -n ${instead[$package]:-} ]] && installed "${instead[$package]}"; } || missing+=("$package")
done

case ${1:-} in
--list)
    printf '%s\n' "${needed[@]}"
    exit
    ;;
--check)
    [[ ${#missing[@]} == 0 ]] || { echo "packages: missing are ${missing[*]}; tools/install_needed.sh installs them"; exit 1; }
    echo "packages: all ${#needed[@]} are installed"
    exit
    ;;
'') ;;
*)
    echo "usage: tools/install_needed.sh [--check | --list]" >&2
    exit 2
    ;;
esac

as_root=()
if [[ $(id -u) != 0 ]]; then as_root=(sudo); fi
rust=$(sed -n 's/^rust-version = "\(.*\)"$/\1/p' ./*/Cargo.toml | sort -V | tail -n 1)
no_rust=0
if ! command -v cargo >/dev/null || ! command -v rustc >/dev/null; then no_rust=1; fi

if [[ ${#missing[@]} != 0 || $no_rust == 1 ]]; then "${as_root[@]}" apt-get update --quiet --quiet; fi
# Rust from anywhere will do; Debian's only where it is new enough
if [[ $no_rust == 1 ]]; then
    candidate=$(apt-cache policy rustc | sed -n 's/^ *Candidate: //p')
    if [[ -n $candidate ]] && dpkg --compare-versions "$candidate" ge "$rust"; then
        missing+=(cargo rustc)
    else
        echo "packages: cargo and rustc are missing, and Debian's are ${candidate:-not there}: $rust or newer is needed, as by rustup"
    fi
fi
if [[ ${#missing[@]} == 0 ]]; then
    echo "packages: all ${#needed[@]} are installed"
    exit
fi
echo "packages: installing ${missing[*]}"
"${as_root[@]}" env DEBIAN_FRONTEND=noninteractive apt-get install --quiet --quiet --yes --no-install-recommends "${missing[@]}"
