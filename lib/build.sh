#!/bin/sh
# Builds the static library for the machine at hand, for C and Rust to link:
#
#   lib/build.sh             target/lib/libyurgamysh.a
#   lib/build.sh --trying    the archive for Arm, made on x86-64: target/lib-trying/libyurgamysh.a
#
# Where nothing that it is made from has changed, it says so and does nothing. A new archive is made
# aside, in target/lib-build, and moved into place last: a build that fails or is stopped leaves the one
# that stands there whole. Beside the archive stands libyurgamysh.txt, a line each: the machine, the
# kind, the kit, the sum of what it was made from and its own.
#
# The archive has an object for each family of functions, since a static library exports what its crate
# itself marks and no crate below it. What families share is in each of their objects, as local symbols.
# A family is proved again where it, or a crate that it stands on, has changed.
#
# The objects are those that `rt lib` writes in a family's folder once all is proved: kind `proved`. They are
# for every x86-64 processor, where the kit by itself compiles for those from x86-64-v2 on.
#
# The kit does not run on Arm. On x86-64 it also compiles for Arm what it proved: kind `trying`. It is for
# measuring and trying, and has not been run. An Arm machine needs no kit to link it, and to test it there
# by checks/bindings.sh FOLDER.
#
# Tried with kit 13f.
set -eu

families='c_cells c_products c_roots c_prediction c_correction c_yarn c_feeders c_cards'

fail() {
    echo "build: $1" >&2
    exit 2
}

# ---- what an object is made from

# The sum of each file that the prover reads.
sum_files() {
    find crates/*/src crates/*/specs crates/*/proofs -type f -exec sha256sum {} + | LC_ALL=C sort -k 2
}

# FAMILY and the crates that it stands on.
crates_of() { # FAMILY
    awk -v family="$1" '
        function visit(n,    a, k, m) {
            if (!(n in deps) || seen[n]++) return
            print n
            m = split(deps[n], a, " ")
            for (k = 1; k <= m; k++) visit(a[k])
        }
        { sub(/#.*/, "") }
        /:/ { n = $1; sub(/:.*/, "", n); sub(/^[^:]*:/, ""); deps[n] = $0 }
        END { visit(family) }' crates.txt
}

# The sum of all that FAMILY's object is made from: its crates' files, this script, the kit, the machine
# and the kind.
sum_of() { # FAMILY
    {
        echo "$1 $machine $kind $version"
        cat lib/build.sh
        crates_of "$1" | LC_ALL=C sort | while read -r crate; do
            grep "^$crate *[a-z]* *:" crates.txt
            grep "  crates/$crate/" "$work/files"
        done
    } | sha256sum | cut -d' ' -f1
}

sum_of_file() { sha256sum "$1" | cut -d' ' -f1; }

# ---- an object

# The object that the kit wrote, out of its archive.
take_object() { # FAMILY OBJECT
    archive=crates/$1/out/lib$1.a
    rm -f "$archive"
    case $kind in
    proved) (cd "crates/$1" && rt lib --cpu x86-64) || return ;;
    *) (cd "crates/$1" && rt lib --target "$machine-unknown-linux-gnu") || return ;;
    esac
    [ "$("$tools/bin/llvm-ar" t "$archive" | wc -l)" -eq 1 ] || {
        echo "$archive has not one object: this kit works in another way"
        return 1
    }
    "$tools/bin/llvm-ar" p "$archive" >"$2" || return
    [ "$kind" = proved ] || rm -f "$archive" # it is not for this machine
}

# Proves what the families stand on that are to be made, as many crates at a time as the machine takes. Where
# one is not proved, the family's own run says so.
prove_below() {
    while read -r family _ sum; do
        [ "$(cat "$work/$family.o.sum" 2>/dev/null)" = "$sum" ] || crates_of "$family" | tail -n +2
    done <"$work/sums" | xargs -r bash checks/quiet.sh "$work/log" >/dev/null 2>&1 || :
}

# Makes FAMILY's object, unless the one that stands there is made from the same.
make_object() { # FAMILY PLACE SUM
    object=$work/$1.o
    if [ -f "$object" ] && [ "$(cat "$object.sum" 2>/dev/null)" = "$3" ]; then
        echo "build: $1 ($2 of $count): unchanged"
        return
    fi
    began=$(date +%s)
    rm -f "$object" "$object.sum"
    take_object "$1" "$object.new" >"$work/log" 2>&1 || {
        grep -vE '^(library|statements|logic |crate|axioms|(fn|struct|enum) .*: proved)' "$work/log" | tail -n 12 | cut -c 1-300 >&2
        fail "$1 ($2 of $count) was not built; $work/log has all that was said"
    }
    mv "$object.new" "$object"
    echo "$3" >"$object.sum"
    echo "build: $1 ($2 of $count): proved, $(($(date +%s) - began)) s"
}

# ---- the archive

# Whether the archive that stands there is the one that was made from SUM.
stands() { # SUM
    [ -f "$folder/libyurgamysh.a" ] && [ -f "$folder/libyurgamysh.txt" ] &&
        grep -qx "from: $1" "$folder/libyurgamysh.txt" &&
        grep -qx "archive: $(sum_of_file "$folder/libyurgamysh.a")" "$folder/libyurgamysh.txt"
}

build() {
    line="build: $folder/libyurgamysh.a, for $machine: $said"
    mkdir -p "$folder" "$work"
    sum_files >"$work/files"
    count=0
    : >"$work/sums"
    for family in $families; do
        count=$((count + 1))
        echo "$family $count $(sum_of "$family")" >>"$work/sums"
    done
    from=$(sum_of_file "$work/sums")
    if stands "$from"; then
        echo "$line; unchanged since it was built"
        return
    fi
    echo "build: proving what is not proved yet, minutes where nothing is; $work/log has what the prover says"
    prove_below
    while read -r family place sum; do
        make_object "$family" "$place" "$sum" </dev/null
    done <"$work/sums"
    new=$work/libyurgamysh
    rm -f "$new.a"
    (cd "$work" && for family in $families; do echo "$family.o"; done | xargs "$tools/bin/llvm-ar" rcsD --format=gnu libyurgamysh.a)
    printf 'machine: %s\nkind: %s\nkit: %s\nfrom: %s\narchive: %s\n' "$machine" "$said" "$version" "$from" \
        "$(sum_of_file "$new.a")" >"$new.txt"
    mv "$new.a" "$folder/libyurgamysh.a"
    mv "$new.txt" "$folder/libyurgamysh.txt"
    echo "$line"
}

root=$(CDPATH='' cd -- "$(dirname -- "$0")/.." && pwd -P)
machine=$(uname -m)
case "$#:${1:-}" in
0: | 1:--trying) ;;
*) fail "usage: lib/build.sh [--trying]" ;;
esac
[ "$machine" = x86_64 ] || fail "this is $machine, and the kit runs on x86_64 alone: lib/build.sh --trying makes Arm's archive there"
sh "$root/checks/kit.sh" || exit 2
tools=$(dirname "$(dirname "$(readlink -f "$(command -v rt)")")")/toolchain
[ -x "$tools/bin/llvm-ar" ] || fail "the kit has no toolchain/bin/llvm-ar: this kit works in another way"
version=$(rt version)

if [ $# -eq 0 ]; then
    kind=proved folder=target/lib said=proved
else
    machine=aarch64 kind=trying folder=target/lib-trying
    said="trying (what is proved, compiled for $machine: for measuring and trying)"
fi
work=target/lib-build/$kind
cd "$root"
build
