#!/usr/bin/env bash
# Builds the oracle: MINIKALMAN_SRC=folder bash oracle/build.sh, or bash oracle/build.sh folder.
# The folder holds src/matrix/traits.rs or matrix/traits.rs of minikalman 0.8.1, and its neighbours.
# Everything that is built lies in target/oracle; a part is built again only if what it is made of is newer.
set -eu

here=$(cd "$(dirname "$0")" && pwd)
out=$(dirname "$here")/target/oracle
given=${1:-${MINIKALMAN_SRC:-}}

die() { echo "oracle/build.sh: $*" >&2; exit 1; }

[ -n "$given" ] || die "where are the files of minikalman 0.8.1? Set MINIKALMAN_SRC or give the folder as the first argument."
[ -d "$given" ] || die "'$given' is no folder."
if [ -f "$given/src/matrix/traits.rs" ]; then files=$(cd "$given/src" && pwd)
elif [ -f "$given/matrix/traits.rs" ]; then files=$(cd "$given" && pwd)
else die "'$given' holds neither src/matrix/traits.rs nor matrix/traits.rs."
fi
command -v rustc >/dev/null || die "rustc is missing."

sum() { if command -v sha256sum >/dev/null; then sha256sum "$1"; else shasum -a 256 "$1"; fi | cut -d' ' -f1; }

missing='' other='' originals=''
while read -r want file; do
  if [ ! -f "$files/$file" ]; then missing="$missing $file"
  elif [ "$(sum "$files/$file")" != "$want" ]; then other="$other $file"
  fi
  originals="$originals $out/files/$file"
done <"$here/CHECKSUMS"
[ -z "$missing" ] || die "'$files' lacks:$missing"
[ -z "$other" ] || die "not the files of minikalman 0.8.1 that oracle/CHECKSUMS lists:$other"
echo 'the five files are those of oracle/CHECKSUMS'

# Copies, since `rt ci` refuses a link anywhere in the repository. The shim names them.
mkdir -p "$out"
[ ! -L "$out/files" ] || rm "$out/files"
while read -r _ file; do
  cmp -s "$files/$file" "$out/files/$file" || { mkdir -p "$(dirname "$out/files/$file")"; cp "$files/$file" "$out/files/$file"; }
done <"$here/CHECKSUMS"

# Debug assertions off: mult_buffered asserts an exact auxiliary length. One codegen unit: one thread.
flags="--edition 2021 -C debug-assertions=off -C overflow-checks=off -C debuginfo=0 -C codegen-units=1 -L $out"
with_minikalman="--extern minikalman=$out/libminikalman.rlib"
with_sizes="$with_minikalman --extern pairs=$out/libpairs.rlib --extern triples=$out/libtriples.rlib"

# build RESULT 'MADE OF' ARGUMENTS OF RUSTC
build() {
  local result=$1 from=$2 stale='' f
  shift 2
  [ -f "$result" ] || stale=yes
  for f in $from "$here/build.sh"; do [ "$result" -nt "$f" ] || stale=yes; done
  [ -n "$stale" ] || return 0
  local began=$SECONDS
  rustc $flags "$@" -o "$result"
  echo "built $(basename "$result") in $((SECONDS - began)) s"
}

build "$out/libnum_traits.rlib" "$here/num_traits/lib.rs" \
  -O --crate-type rlib --crate-name num_traits "$here/num_traits/lib.rs"
shim="$originals $here/minikalman/lib.rs $here/minikalman/kalman.rs $here/minikalman/lent.rs $here/minikalman/matrix.rs $here/minikalman/observations.rs"
build "$out/libminikalman.rlib" "$out/libnum_traits.rlib $shim" \
  -C opt-level=0 --crate-type rlib --crate-name minikalman --cfg 'feature="std"' \
  --extern num_traits="$out/libnum_traits.rlib" "$here/minikalman/lib.rs"
# 4,096 triples of sizes: any other opt-level takes many times as long.
build "$out/libtriples.rlib" "$out/libminikalman.rlib $here/sizes/triples.rs $here/sizes/tables.rs" \
  -C opt-level=0 --crate-type rlib --crate-name triples $with_minikalman "$here/sizes/triples.rs"
build "$out/libpairs.rlib" "$out/libminikalman.rlib $here/sizes/pairs.rs $here/sizes/tables.rs" \
  -C opt-level=0 --crate-type rlib --crate-name pairs $with_minikalman "$here/sizes/pairs.rs"
build "$out/oracle" "$out/libtriples.rlib $out/libpairs.rlib $(echo "$here"/src/*.rs)" \
  -O --crate-type bin --crate-name oracle $with_sizes "$here/src/main.rs"

# What the original does where the rules ask for something else, without and with debug assertions.
build "$out/findings" "$out/libminikalman.rlib $here/src/findings.rs" \
  -C opt-level=0 --crate-type bin --crate-name findings $with_minikalman "$here/src/findings.rs"
mkdir -p "$out/debug"
on='-C debug-assertions=on -C overflow-checks=on'
build "$out/debug/libminikalman.rlib" "$out/libnum_traits.rlib $shim" \
  -C opt-level=0 $on --crate-type rlib --crate-name minikalman --cfg 'feature="std"' \
  --extern num_traits="$out/libnum_traits.rlib" "$here/minikalman/lib.rs"
build "$out/findings-debug" "$out/debug/libminikalman.rlib $here/src/findings.rs" \
  -C opt-level=0 $on --crate-type bin --crate-name findings \
  --extern minikalman="$out/debug/libminikalman.rlib" "$here/src/findings.rs"
echo 'target/oracle/oracle and target/oracle/findings are ready'

