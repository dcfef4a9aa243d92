#!/bin/sh
# What the parts of a crate's check cost: seconds by the clock, the dearest first, and below a quarter of a
# second none. A function's parts are its borrows (`Lts`), the contracts that it meets (`Tie`, where a
# callee's modules are read too) and its proof (`Proof`); what stands below the crate is proved first.
#
#   checks/parts.sh CRATE
#
# `rt check` keeps each module as soon as it is checked, and its file's time tells when that was. Checks of
# the crate on this machine begin with what earlier ones kept, so this one is made by a copy of the kit that
# finds none of it (checks/shadow_kit.sh).
set -eu
cd "$(dirname -- "$0")/.."
sh checks/kit.sh
[ $# -eq 1 ] && [ -d "crates/$1/src" ] || {
    echo 'usage: checks/parts.sh CRATE' >&2
    exit 2
}
kept=crates/$1/out/incremental
log=$PWD/target/parts.log
mkdir -p target
room=$(mktemp -d "${TMPDIR:-/tmp}/parts-XXXXXX")
trap 'rm -rf "$room"' EXIT
trap 'exit 130' INT TERM HUP
sh checks/shadow_kit.sh "$room"
{ (cd "crates/$1" && rt check) && rm -rf "$kept" && (cd "crates/$1" && "$room/kit/bin/rt" check --jobs 1); } >"$log" 2>&1 || {
    echo "parts: $1 is not proved; target/parts.log says why" >&2
    exit 1
}
find "$kept" -name '*.decls.oantt' -printf '%T@ %f\n' | sort -n | awk '
    {
        name = $2
        sub(/\.decls\.oantt$/, "", name)
        sub(/^Rattle-[a-z0-9_]+[-.](proofs|specs)\./, "", name)
        if (NR > 1) printf "%6.2f  %s\n", $1 - before, name
        before = $1
    }' | awk '$1 >= 0.25' | sort -rn
