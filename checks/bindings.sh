#!/bin/sh
# Tests what C, C++ and Rust programs link: the header, the archive and the crate in bindings/rust.
#
#   checks/bindings.sh            builds the archive (lib/build.sh) and tests it
#   checks/bindings.sh FOLDER     tests the archive that stands there, as target/lib-trying
#
# Prints a line for each test and, at the end, the counts; the exit status is 1 where one failed or
# none was run. What is skipped is said, with the reason. Everything that it writes is under target/.
set -u

root=$(CDPATH='' cd -- "$(dirname -- "$0")/.." && pwd -P)
passed=0 failed=0 skipped=0

ok() { passed=$((passed + 1)) && echo "ok: $1"; }
bad() { failed=$((failed + 1)) && echo "FAILED: $1"; }
skip() { skipped=$((skipped + 1)) && echo "skipped: $1"; }
has() { command -v "$1" >/dev/null 2>&1; }

# Runs a command and keeps what it says in target/bindings/said; on failure shows its end.
run() { # NAME COMMAND..
    name=$1
    shift
    if "$@" >"$out/said" 2>&1; then
        return 0
    fi
    tail -n 20 "$out/said"
    bad "$name"
    return 1
}

# ---- the lists of functions

# 'yurgamysh_get S,S,S,C,S,S,S,M': the kinds of the result and the parameters, S a size, C and M floats
# that are read and written, F a float, B and W bytes that are read and written, Y yarns' records that are
# written, N the counts of a row that are written, Z a size that is written, V nothing. A function that has
# a body in the header is none of these.
header_signatures() {
    tr '\n' ' ' <include/yurgamysh.h |
        sed 's|/\*[^*]*\*\{1,\}\([^/*][^*]*\*\{1,\}\)*/||g' |
        grep -oE '(size_t|float|void) yurgamysh_[a-z_]+\([^)]*\);' |
        sed -E 's/^(size_t|float|void) (yurgamysh_[a-z_]+)\((.*)\);$/\2 \1 r, \3/
            s/const float \*[a-z_]+/C/g; s/float \*[a-z_]+/M/g; s/yurgamysh_one_state \*[a-z_]+/Y/g
            s/const uint8_t \*[a-z_]+/B/g; s/uint8_t \*[a-z_]+/W/g
            s/yurgamysh_counts \*[a-z_]+/N/g; s/size_t \*[a-z_]+/Z/g
            s/size_t [a-z_]+/S/g; s/float [a-z_]+/F/g; s/void [a-z_]+/V/g
            s/ +/ /g; s/, */,/g' | sort
}

rust_signatures() {
    tr '\n' ' ' <bindings/rust/src/sys.rs |
        grep -oE 'fn yurgamysh_[a-z_]+\([^)]*\)( -> [a-z0-9]+)?;' |
        sed -E 's/\);$/) -> void;/; s/^fn (yurgamysh_[a-z_]+)\((.*)\) -> (.*);$/\1 r: \3, \2/
            s/[a-z_]+: \*const f32/C/g; s/[a-z_]+: \*mut f32/M/g; s/[a-z_]+: \*mut OneState/Y/g
            s/[a-z_]+: \*const u8/B/g; s/[a-z_]+: \*mut u8/W/g
            s/[a-z_]+: \*mut Counts/N/g; s/[a-z_]+: \*mut usize/Z/g
            s/[a-z_]+: usize/S/g; s/[a-z_]+: f32/F/g; s/[a-z_]+: void/V/g
            s/ +/ /g; s/, */,/g; s/,$//' | sort
}

same_lists() { # WHAT FILE FILE
    if cmp -s "$2" "$3"; then ok "$1"; else diff "$2" "$3"; bad "$1"; fi
}

compare_lists() {
    header_signatures >"$out/header"
    rust_signatures >"$out/rust"
    cut -d' ' -f1 "$out/header" >"$out/names"
    same_lists "the header and sys.rs have the same $(wc -l <"$out/names" | tr -d ' ') functions" "$out/header" "$out/rust"
    {
        sed -n 's/^    ROW(\([a-z_]*\), .*/yurgamysh_\1/p' checks/c/calls.c
        grep -oE 'yurgamysh_feeders_[a-z]+' checks/c/feeders.c | sort -u
        grep -ohE 'yurgamysh_card_[a-z]+' checks/c/cards.c checks/c/card_writing.c | sort -u
        echo yurgamysh_square_root
        echo yurgamysh_recip
    } | sort >"$out/tested"
    same_lists "the C test calls each of them" "$out/names" "$out/tested"
    if has nm; then
        nm -g "$archive" | sed -n 's/.* T //p' | sort >"$out/exported"
        same_lists "the archive exports these and nothing else" "$out/names" "$out/exported"
        nm -u "$archive" | awk 'NF == 2 { print $2 }' | sort -u >"$out/taken"
        echo memset >"$out/allowed"
        same_lists "of C's functions the archive takes memset alone" "$out/allowed" "$out/taken"
    else
        skip "what the archive exports and what it takes: no nm"
    fi
}

# ---- C and C++

warnings='-Wall -Wextra -Werror -pedantic'

# The header alone, with more warnings than a test needs.
header_alone() { # COMPILER WORDS..
    printf '#include "yurgamysh.h"\n#include "yurgamysh.h"\ntypedef enum yurgamysh_answer answer;\n' >"$out/alone.c"
    # shellcheck disable=SC2086
    run "the header alone, $*" "$@" $warnings -Wconversion -Wshadow -Wundef -Iinclude -fsyntax-only "$out/alone.c" &&
        ok "the header alone, $*"
}

# What twelve_feeders says, in C and in Rust.
twelve_feeders='round 1: 12 accepted
round 2: 11 accepted, feeder 7 the first refused
round 3: 10 accepted, feeder 2 the first refused
round 4: 10 accepted, feeder 7 the first refused
feeder 7: 36.41 cN, blind 3
feeder 10: 35.90 cN, blind 1'

# What settings_card says, in C and in Rust.
settings_card='line 2: states is missing or wrong
x is [37 2], P is [4 2; 2 3]'

# What card_back says, in C and in Rust.
card_back='141 bytes read, and the same written'

test_language() { # COMPILER WORDS..
    if ! has "$1"; then
        skip "$*: no $1"
        return
    fi
    header_alone "$@"
    # shellcheck disable=SC2086
    run "compiling the test, $*" "$@" -O1 $warnings -ffp-contract=off checks/c/bindings.c checks/c/calls.c \
        checks/c/card_model.c checks/c/card_texts.c checks/c/card_writing.c checks/c/cards.c checks/c/examples.c \
        checks/c/feeders.c checks/c/inputs.c checks/c/model.c checks/c/room.c \
        -x none "$archive" -lm -o "$out/test" &&
        run "$*" "$out/test" && ok "$*: $(tail -n 1 "$out/said")"
    test_example one_yarn 'x is 4, P is 0.75' "$@"
    test_example blind_feeder '36.06 cN, blind 0
36.06 cN, blind 1
36.06 cN, blind 2
36.06 cN, blind 3: see to it
36.03 cN, blind 0' "$@"
    test_example twelve_feeders "$twelve_feeders" "$@"
    test_example settings_card "$settings_card" "$@"
    test_example card_back "$card_back" "$@"
}

# An example that README.md shows says this.
test_example() { # NAME TEXT COMPILER WORDS..
    example=$1 text=$2
    shift 2
    # shellcheck disable=SC2086
    run "compiling $example, $*" "$@" $warnings -Iinclude "checks/c/$example.c" -x none "$archive" -o "$out/example" &&
        run "$example, $*" "$out/example" && said_is "$example, $*" "$text"
}

said_is() { # NAME TEXT
    if [ "$(cat "$out/said")" = "$2" ]; then ok "$1"; else
        cat "$out/said"
        bad "$1: it should say: $2"
    fi
}

# ---- Rust

# Each count of cargo's 'test result' lines.
rust_count() { sed -n "s/^test result: .* \([0-9]*\) $1;.*/\1/p" "$out/cargo" | awk '{ n += $1 } END { print n + 0 }'; }

# An example of the crate says this.
test_rust_example() { # NAME TEXT
    (cd bindings/rust && YURGAMYSH_LIB=$folder cargo run --offline -q --example "$1") >"$out/said" 2>&1
    said_is "$1, Rust" "$2"
}

# A build that must fail and say so.
refuses() { # NAME FOLDER TEXT
    if (cd bindings/rust && YURGAMYSH_LIB=$2 cargo build --offline --target-dir "$out/refused") >"$out/said" 2>&1; then
        bad "$1: the crate was built"
    elif grep -qF -- "$3" "$out/said"; then
        ok "$1"
    else
        tail -n 20 "$out/said"
        bad "$1: it should say: $3"
    fi
}

test_rust() {
    if ! has cargo; then
        skip "the Rust crate: no cargo"
        return
    fi
    (cd bindings/rust && YURGAMYSH_LIB=$folder cargo test --offline) >"$out/cargo" 2>&1
    status=$?
    if [ $status -ne 0 ]; then tail -n 40 "$out/cargo"; fi
    if [ $status -ne 0 ] || [ "$(rust_count failed)" -ne 0 ] || [ "$(rust_count passed)" -eq 0 ]; then
        bad "cargo test: $(rust_count passed) passed, $(rust_count failed) failed, status $status"
    else
        ok "cargo test: $(rust_count passed) passed"
    fi
    test_rust_example one_yarn 'x is 4, P is 0.75
Err(Pivot(0))
x is 4, P is -3'
    test_rust_example twelve_feeders "$twelve_feeders"
    test_rust_example settings_card "$settings_card"
    test_rust_example card_back "$card_back"
    mkdir -p "$out/empty" "$out/other"
    refuses 'a missing archive is told, with the command that makes it' "$out/empty" 'sh lib/build.sh'
    : >"$out/other/libyurgamysh.a"
    printf 'machine: another\nkind: proved\n' >"$out/other/libyurgamysh.txt"
    refuses 'an archive for another machine is told' "$out/other" 'is for another, and cargo builds for'
}

# The examples that README.md shows are the ones that were run.
shown() { # FILE
    if awk -v file="$1" '
        BEGIN { while ((getline line < file) > 0) want = want (line == "" ? "" : "    " line) "\n" }
        { text = text $0 "\n" }
        END { exit !(want != "" && index(text, "\n" want)) }' README.md; then
        ok "README.md shows $1"
    else
        bad "README.md does not show $1 as it is"
    fi
}

cd "$root" || exit 2
out=$root/target/bindings
rm -rf "$out"
mkdir -p "$out"
built=yes
if [ $# -gt 0 ]; then
    folder=$(CDPATH='' cd -- "$1" && pwd -P) || exit 2
else
    folder=$root/target/lib
    if has rt; then
        if run 'lib/build.sh' sh lib/build.sh; then ok "$(tail -n 1 "$out/said")"; else built=; fi
    else
        skip 'building the archive: rt is not on the PATH'
    fi
fi
archive=$folder/libyurgamysh.a
if [ -z "$built" ]; then
    skip 'all the rest: an archive that stands there is from before'
elif [ -f "$archive" ]; then
    compare_lists
    test_language gcc -std=c99
    test_language gcc -std=c11
    test_language g++ -std=c++11 -x c++
    test_language clang -std=c99
    test_language clang -std=c11
    test_language clang++ -std=c++11 -x c++
    test_rust
    shown checks/c/one_yarn.c
    shown checks/c/blind_feeder.c
    shown checks/c/twelve_feeders.c
    shown checks/c/settings_card.c
    shown checks/c/card_back.c
    shown bindings/rust/examples/one_yarn.rs
    shown bindings/rust/examples/card_back.rs
else
    bad "there is no $archive: sh lib/build.sh makes it"
fi
[ "$passed" -gt 0 ] || bad 'no test was run'
echo "bindings: $passed passed, $failed failed, $skipped skipped"
[ "$failed" -eq 0 ]
