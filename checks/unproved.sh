#!/bin/sh
# Compiles the square root and the reciprocal of a tree of crates WITHOUT PROOF. Nothing that this builds
# is proved, whatever the tree holds; no archive is made of it, and nobody links it but checks of code
# that breaks its contracts and so has no proof (checks/every_root.sh, with a damaged table).
#
#   checks/unproved.sh TREE NAME     target/unproved/NAME.o, of TREE/crates and TREE/crates.txt
#
# The object exports yurgamysh_square_root and yurgamysh_recip, which call what the family c_roots calls for
# them. The kit compiles what is not proved only as a program that it tries at once (`rt try`), with tests of
# each step in it; so a program that calls the two is handed to a copy of the kit whose clang keeps the
# bitcode (checks/shadow_kit.sh). Of that the program's main and what the tests do are taken out, the two
# functions for C are put in, and the kit's own clang makes the object, with the flags that the archive has,
# for every x86-64 processor. Tried with kit 13f. For x86-64 alone. Sources and links lie in a temporary folder
# while it runs; all else that it writes is under target/.
set -eu

fail() {
    echo "unproved: $1" >&2
    exit 2
}

# The tree as a repository of its own, with a program that calls the two.
make_program() {
    mkdir -p "$room/tree/.git" "$room/tree/crates/unproved/src"
    for source in "$tree"/crates/*/src; do
        crate=${source%/src}
        mkdir -p "$room/tree/crates/${crate##*/}"
        cp -R "$source" "$room/tree/crates/${crate##*/}/src"
    done
    { cat "$tree/crates.txt" && echo 'unproved: data_type'; } >"$room/tree/crates.txt"
    cat >"$room/tree/crates/unproved/src/main.rt" <<'END'
fn yurgamysh_square_root(x: f32) -> f32 {
    data_type::square_root(x)
}

fn yurgamysh_recip(v: f32) -> f32 {
    data_type::recip(v)
}

fn main() {
    let _root = yurgamysh_square_root(1.0);
    let _recip = yurgamysh_recip(1.0);
}
END
}

# The program, compiled and tried by the kit: its bitcode ends in kept.bc. How the try ends does not matter.
compile_program() {
    sh "$root/checks/shadow_kit.sh" "$room" "$room/kept.bc"
    (cd "$room/tree/crates/unproved" && "$room/kit/bin/rt" try) </dev/null >"$work.log" 2>&1 || :
    [ -f "$room/kept.bc" ] || {
        tail -n 12 "$work.log" | cut -c 1-300 >&2
        fail "$tree was not compiled; $work.log has all that was said"
    }
}

clang() {
    TMPDIR=$room "$tools/bin/clang" --target=x86_64-unknown-linux-gnu --no-default-config \
        -Wno-override-module "$@"
}

# The text of the bitcode, with the two functions for C at its end, without main, and with tests that do
# nothing.
with_exports() {
    awk '
        /^define i32 @main\(\)/ { inside = 1 }
        /^define internal void @"rattle-llvm-checks::/ { print; print "  ret void\n}"; tests++; inside = 1 }
        !inside
        inside && /^[}]/ { inside = 0 }
        /^define internal noundef float @"[a-z_:]*::yurgamysh_(square_root|recip)"\(float noundef %a0\) #[0-9]+ [{]$/ {
            split($0, part, "\"")
            name = part[2]
            sub(/.*::/, "", name)
            export[++count] = "define float @" name "(float noundef %v) " $(NF - 1) " {\n" \
                "  %r = call float @\"" part[2] "\"(float %v)\n  ret float %r\n}\n"
        }
        END {
            for (k = 1; k <= count; k++) printf "\n%s", export[k]
            exit (count != 2 || tests == 0)
        }' "$room/kept.ll" >"$room/exported.ll" || fail "the two functions are not in the module: this kit works in another way"
}

make_object() {
    clang -O0 -Xclang -disable-llvm-passes -S -emit-llvm -x ir "$room/kept.bc" -o "$room/kept.ll"
    with_exports
    clang -march=x86-64 -O3 -fPIC -ffunction-sections -fdata-sections -mllvm -trap-unreachable \
        -mllvm -no-trap-after-noreturn -mllvm -no-x86-call-frame-opt -mllvm -disable-machine-licm \
        -mllvm -disable-postra-machine-licm -mllvm -sink-common-insts=false \
        -c -x ir "$room/exported.ll" -o "$work.o"
}

root=$(CDPATH='' cd -- "$(dirname -- "$0")/.." && pwd -P)
[ $# -eq 2 ] || fail 'usage: checks/unproved.sh TREE NAME'
case $2 in '' | *[!a-z_]*) fail "$2: a name has small letters and _ alone" ;; esac
[ -f "$1/crates.txt" ] || fail "$1 has no crates.txt"
[ -d "$1/crates/data_type/src" ] || fail "$1 has no crates/data_type/src"
tree=$(CDPATH='' cd -- "$1" && pwd -P)
[ "$(uname -m)" = x86_64 ] || fail "this is $(uname -m), and the script knows x86_64 alone"
sh "$root/checks/kit.sh" || exit 2
tools=$(dirname "$(dirname "$(readlink -f "$(command -v rt)")")")/toolchain
[ -x "$tools/bin/clang" ] || fail "the kit has no toolchain/bin/clang: this kit works in another way"
work=$root/target/unproved/$2
mkdir -p "$root/target/unproved"
rm -f "$work.o" "$work.log"
room=$(mktemp -d "${TMPDIR:-/tmp}/unproved-XXXXXX")
trap 'rm -rf "$room"' EXIT
trap 'exit 130' INT TERM HUP
make_program
compile_program
make_object
echo "unproved: target/unproved/$2.o is compiled WITHOUT PROOF: for this check alone"
