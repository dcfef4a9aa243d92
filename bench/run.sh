#!/usr/bin/env bash
# Builds ours and the original for this machine, compares their results and measures both in one run:
#   MINIKALMAN_SRC=folder bash bench/run.sh [folder] [--plot] [--bars] [--grid [ARCHIVE.a]]
# The folder holds src/matrix/traits.rs or matrix/traits.rs of minikalman 0.8.1, and its neighbours.
# Eigen stands beside them where the system has it. --grid adds every size, and with an earlier build of
# libyurgamysh.a, how many times as fast this one is. Everything that is built or drawn lies in
# target/bench. The exit status is 0 where it was measured and 2 where it could not be; with --bars it is
# 1 where a bar of bench/README.md is not met.
set -eu

here=$(cd "$(dirname "$0")" && pwd)
root=$(dirname "$here")
out=$root/target/bench

die() { echo "bench/run.sh: $*" >&2; exit 2; }

usage='bench/run.sh [folder] [--plot] [--bars] [--grid [ARCHIVE.a]]'
given=${MINIKALMAN_SRC:-} plot='' bars='' grid='' earlier=''
while [ $# -gt 0 ]; do
  case $1 in
    --plot) plot=yes ;;
    --bars) bars=--bars ;;
    --grid)
      grid=yes
      # The word behind it is an archive by its ending, and otherwise a word by itself.
      case ${2:-} in *.a) earlier=$2 && shift ;; esac
      ;;
    -*) die "'$1' is not known: $usage" ;;
    *) given=$1 ;;
  esac
  shift
done

sh "$root/checks/kit.sh" || exit 2
command -v rustc >/dev/null || die "rustc is missing."
[ -n "$given" ] || die "where are the files of minikalman 0.8.1? Set MINIKALMAN_SRC or give the folder as an argument."
[ -d "$given" ] || die "'$given' is no folder."
if [ -f "$given/src/matrix/traits.rs" ]; then files=$(cd "$given/src" && pwd)
elif [ -f "$given/matrix/traits.rs" ]; then files=$(cd "$given" && pwd)
else die "'$given' holds neither src/matrix/traits.rs nor matrix/traits.rs."
fi
while read -r want file; do
  [ -f "$files/$file" ] || die "'$files' lacks $file."
  [ "$(sha256sum "$files/$file" | cut -d' ' -f1)" = "$want" ] || die "'$files/$file' is not the file of minikalman 0.8.1 that oracle/CHECKSUMS lists."
done <"$root/oracle/CHECKSUMS"
if [ -n "$earlier" ]; then
  [ -f "$earlier" ] || die "'$earlier' is no file: give an earlier build of libyurgamysh.a behind --grid."
  earlier=$(cd "$(dirname "$earlier")" && pwd)/$(basename "$earlier")
fi

cd "$root"
mkdir -p "$out" target/oracle
# The oracle's shim names these copies of the original's files.
[ ! -L target/oracle/files ] || rm target/oracle/files
while read -r _ file; do
  cmp -s "$files/$file" "target/oracle/files/$file" || { mkdir -p "$(dirname "target/oracle/files/$file")"; cp "$files/$file" "target/oracle/files/$file"; }
done <oracle/CHECKSUMS

echo "proving and building the archive; target/bench/lib.log has what is said of it"
sh lib/build.sh >"$out/lib.log" 2>&1 || { tail -20 "$out/lib.log" >&2; die "the archive was not built; target/bench/lib.log has it whole."; }
tail -n 1 "$out/lib.log"

echo "building all sides, comparing and measuring them: a minute, and the first time another one for Eigen"
flags='--edition 2021 -C opt-level=3 -C codegen-units=1 -C debuginfo=0'
rustc $flags --crate-type rlib --crate-name num_traits oracle/num_traits/lib.rs -o "$out/libnum_traits.rlib"
rustc $flags --crate-type rlib --crate-name minikalman --cfg 'feature="std"' \
  --extern num_traits="$out/libnum_traits.rlib" bench/original/lib.rs -o "$out/libminikalman.rlib"
# Eigen's filters, or what stands in their place; with them C++'s library is linked.
said=$(sh bench/eigen/build.sh "$out/eigen.o") || die "bench/eigen was not built."
eigen=0
set -- -C link-arg="$out/eigen.o"
[ ! -f "$out/eigen.o.sum" ] || { eigen=1 && set -- "$@" -C link-arg=-lstdc++; }
rustc $flags --crate-type bin --crate-name bench -L "$out" --extern minikalman="$out/libminikalman.rlib" \
  -C link-arg="$root/target/lib/libyurgamysh.a" "$@" bench/src/main.rs -o "$out/bench"

# The archive's functions under other names, earlier_ for yurgamysh_. All else in it is local.
renamed() { # ARCHIVE NEW
  objcopy=$(command -v objcopy || command -v llvm-objcopy) || die "objcopy is missing (the system's package 'binutils')."
  nm -g --defined-only "$1" | sed -n 's/.* T yurgamysh_\(.*\)/yurgamysh_\1 earlier_\1/p' | sort -u >"$out/names"
  for name in predict correct; do
    grep -q "^yurgamysh_$name " "$out/names" || die "'$1' has no function yurgamysh_$name."
  done
  "$objcopy" --redefine-syms="$out/names" "$1" "$2" || die "the functions of '$1' were not renamed."
}

if [ -n "$grid" ]; then
  set --
  if [ -n "$earlier" ]; then
    renamed "$earlier" "$out/libearlier.a"
    set -- --cfg earlier -C link-arg="$out/libearlier.a"
  fi
  rustc $flags -C opt-level=0 --crate-type rlib --crate-name all_sizes -L "$out" \
    --extern minikalman="$out/libminikalman.rlib" bench/grid/all_sizes.rs -o "$out/liball_sizes.rlib"
  rustc $flags --crate-type bin --crate-name grid -L "$out" --extern all_sizes="$out/liball_sizes.rlib" \
    -C link-arg="$root/target/lib/libyurgamysh.a" "$@" bench/grid/main.rs -o "$out/grid" || die "the grid was not built."
fi

# What /proc/cpuinfo says, or on Arm, where it gives no name, lscpu.
cpu() { sed -n "s/^$1[[:space:]]*: //p" /proc/cpuinfo | head -1; }
processor=$(cpu 'model name')
[ -z "$processor" ] || processor="$processor, family $(cpu 'cpu family'), model $(cpu model)"
[ -n "$processor" ] || processor="$(uname -m) $(lscpu 2>/dev/null | sed -n 's/^Model name: *//p' | head -1)"
echo "processor: $processor, $(nproc) cores; load $(cut -d' ' -f1 /proc/loadavg)"
echo "kernel: $(uname -sr)"
echo "compilers: $(rustc --version); $(rt version)"
echo "$said"
echo "date: $(date -u +%Y-%m-%d)"
echo
status=0
"$out/bench" $bars --data "$out/figures.tsv" || status=$?
[ "$status" -le 1 ] || die "nothing was measured."
if [ -n "$grid" ]; then
  of_grid=0
  echo
  [ -z "$earlier" ] || echo "the earlier archive: $earlier"
  "$out/grid" $bars || of_grid=$?
  [ "$of_grid" -le 1 ] || die "the grid was not measured."
  [ "$of_grid" -eq 0 ] || status=1
fi

if [ -n "$plot" ] && ! command -v gnuplot >/dev/null; then
  echo "bench/run.sh: nothing is drawn, since gnuplot is missing (the system's package 'gnuplot-nox'); target/bench/figures.tsv has the figures." >&2
elif [ -n "$plot" ]; then
  gnuplot -e "data='$out/figures.tsv'; picture='$out/speed.svg'; eigen=$eigen" bench/plot.gp
  echo "target/bench/speed.svg is drawn"
fi
exit "$status"
