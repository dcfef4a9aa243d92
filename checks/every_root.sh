#!/bin/sh
# Compares the proved square root and reciprocal with the processor's on all 2^32 bit patterns of
# an f32, any NaN equal to any other NaN.
#
#   checks/every_root.sh                all of them: 12 seconds on two cores with nothing else to do
#   checks/every_root.sh FROM COUNT     COUNT patterns from FROM on, as 0x3f800000 1000000
#   checks/every_root.sh --damaged      all of them twice, with the table as it is and with one of its
#                                       entries damaged: how many differ, the seconds, and what a root
#                                       of that entry takes
#   checks/every_root.sh --loop         how many of the numbers above zero and finite have a root for
#                                       which the table's proposal is refused, so that the loop works
#                                       it out; with the table as it is, and damaged
#
# The first two build the archive (lib/build.sh), link it with checks/every_root.c and run that. The
# other two run code that breaks its contracts and so has no proof: they link an object that is compiled
# WITHOUT PROOF (checks/unproved.sh) from a copy of the crates in a temporary folder, where alone the edits
# are made.
# Everything else that it writes is under target/. The exit status is 0 where nothing differs.
set -eu

reach='0x402f0000 16384' # the patterns from 2 to 4 that lead to entry 700 of the table

fail() {
    echo "every_root: $1" >&2
    exit 2
}

# Links checks/every_root.c with OBJECT, an object or an archive: target/checks/NAME.
link_with() { # OBJECT NAME
    gcc -O2 -std=c11 -Wall -Wextra -pthread -D_POSIX_C_SOURCE=200809L \
        -o "target/checks/$2" checks/every_root.c "$1"
}

# ---- builds that only this run sees

# The folder of the copies, outside the repository, since `rt ci` refuses sources that no crate of it has.
make_room() {
    trees=$(mktemp -d "${TMPDIR:-/tmp}/every-root-XXXXXX")
    trap 'rm -rf "$trees"' EXIT
    trap 'exit 130' INT TERM HUP
}

# A copy of the sources.
copy_to() { # NAME
    for source in crates/*/src; do
        mkdir -p "$trees/$1/${source%/src}"
        cp -R "$source" "$trees/$1/$source"
    done
    cp crates.txt "$trees/$1/"
}

# Entry 700 (arm 188 of the upper half) gets the number of entry 512 (arm 0), e and what improves it. Its
# proposals are then short of the roots by two million or so. Every second exponent leads to it.
damage() { # NAME
    file=crates/upper_roots/src/lib.rt
    awk '
        /^ *0 => 0x/ { other = $0; sub(/^ *0 => /, "", other) }
        /^ *188 => 0x/ && other != "" { sub(/=> .*/, "=> " other); edited++ }
        { print }
        END { exit (edited != 1) }' "$file" >"$trees/$1/$file" || fail "$file has not the two arms that it had"
}

# The loop, where near_root calls it, gives 0. Then r is 0 and n is not, so that near_root gives 1; the right
# s is 2^23 at least, and the pattern is a number that goes by the exponent alone, plus s. So a root that
# took the loop is never the right one, and one that did not is what it was. (The table has another call of
# the loop, in an arm that no argument reaches.)
spoil_loop() { # NAME
    file=crates/data_type/src/root.rt
    awk '
        sub(/root_entries::by_digits\(n\)/, "0") { edited++ }
        { print }
        END { exit (edited != 1) }' "$file" >"$trees/$1/$file" || fail "$file has not the one call of the loop that it had"
}

# Compiles the copy without proof and links it.
build_unproved() { # NAME
    sh checks/unproved.sh "$trees/$1" "$1"
    link_with "target/unproved/$1.o" "every_root_$1"
}

compare_damaged() {
    make_room
    copy_to whole
    copy_to damaged
    damage damaged
    build_unproved whole
    build_unproved damaged
    status=0
    echo 'every_root: unproved, the table as it is'
    run_both whole
    echo 'every_root: unproved, entry 700 of the table damaged'
    run_both damaged
    return "$status"
}

# Compares all, and times the entry's own.
run_both() { # NAME
    "target/checks/every_root_$1" || status=1
    # shellcheck disable=SC2086 # two words
    "target/checks/every_root_$1" --time $reach
}

count_loops() {
    make_room
    copy_to loop
    spoil_loop loop
    copy_to damaged_loop
    damage damaged_loop
    spoil_loop damaged_loop
    build_unproved loop
    build_unproved damaged_loop
    echo 'every_root: unproved, the loop spoilt, the table as it is'
    target/checks/every_root_loop --loop
    echo 'every_root: unproved, the loop spoilt, entry 700 of the table damaged'
    target/checks/every_root_damaged_loop --loop
}

root=$(CDPATH='' cd -- "$(dirname -- "$0")/.." && pwd)
[ "$(uname -m)" = x86_64 ] || fail "this is $(uname -m), and the answers are held to an x86-64 processor's"
command -v gcc >/dev/null || fail "gcc is not on the path"

cd "$root"
mkdir -p target/checks
case ${1:-} in
--damaged | --loop) [ $# -eq 1 ] || fail "$1 takes no other words" ;;
esac
case ${1:-} in
--damaged) compare_damaged ;;
--loop) count_loops ;;
*)
    sh lib/build.sh
    link_with target/lib/libyurgamysh.a every_root
    exec target/checks/every_root "$@"
    ;;
esac
