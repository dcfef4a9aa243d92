#!/bin/sh
# Compares the reader and the writer of settings cards with second ones (checks/cards/reader.rs, writer.rs),
# which are written from rules R34 and R35 alone and in another manner:
#
#   checks/cards.sh              on 10,000,000 cards and 1,500,000 models by chance: 90 seconds
#   checks/cards.sh COUNT        on so many cards, and three models for each twenty
#   checks/cards.sh --list       writes the list that the gate replays: > crates/card_cases/stdin
#
# It builds the archive (lib/build.sh), or takes the one of the folder in YURGAMYSH_LIB, and links it with
# checks/cards/fuzz.rs. Cards are read; models are written, what is written is read back, and their cards are
# read and written again. The card and all that is lent lie beside pages that may not be touched. Some of it
# is done once more under valgrind, in heap blocks of their length. And the list that stands in
# crates/card_cases is compared with what --list writes. It needs rustc. Everything that it writes is
# under target/. The exit status is 0 where nothing differs.
set -eu

under_valgrind=30000

fail() {
    echo "cards: $1" >&2
    exit 2
}

# Builds checks/cards/NAME.rs.
build() { # NAME WORDS..
    name=$1
    shift
    rustc --edition 2021 -O -D warnings "$@" -o "$out/$name" "checks/cards/$name.rs"
}

# Where the archive is: built, or in the folder that was named.
archive() {
    if [ -n "${YURGAMYSH_LIB:-}" ]; then
        folder=$(CDPATH='' cd -- "$YURGAMYSH_LIB" && pwd) || fail "there is no folder $YURGAMYSH_LIB"
    else
        folder=$root/target/lib
        sh lib/build.sh || fail 'the archive was not built'
    fi
    [ -f "$folder/libyurgamysh.a" ] || fail "there is no $folder/libyurgamysh.a"
}

# The list in the gate is the one that is made.
compare_list() {
    build list
    "$out/list" >"$out/list.txt"
    if cmp -s "$out/list.txt" crates/card_cases/stdin; then
        echo 'cards: crates/card_cases/stdin is the list that is made'
    else
        echo 'cards: crates/card_cases/stdin is not the list that is made: sh checks/cards.sh --list'
        status=1
    fi
}

compare_both() { # COUNT
    archive
    build fuzz -C link-arg="$folder/libyurgamysh.a"
    "$out/fuzz" "$1" "$(($1 * 3 / 20))" || status=1
    if ! command -v valgrind >/dev/null; then
        echo 'cards: skipped, the cards under valgrind: no valgrind'
        return
    fi
    few=$1
    [ "$few" -le "$under_valgrind" ] || few=$under_valgrind
    echo 'cards: under valgrind'
    valgrind -q --error-exitcode=9 "$out/fuzz" "$few" "$((few * 3 / 20))" --heap || status=1
}

root=$(CDPATH='' cd -- "$(dirname -- "$0")/.." && pwd -P)
out=$root/target/cards
status=0
command -v rustc >/dev/null || fail 'rustc is not on the path'
cd "$root"
mkdir -p "$out"
case ${1:-} in
--list)
    build list
    "$out/list"
    ;;
*[!0-9]*) fail 'usage: checks/cards.sh [COUNT | --list]' ;;
*)
    compare_list
    compare_both "${1:-10000000}"
    ;;
esac
exit "$status"
