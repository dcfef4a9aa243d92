#!/bin/sh
# Builds the filters written with Eigen, or what stands in their place where Eigen is not there:
#   sh bench/eigen/build.sh OBJECT
# Eigen is looked for in EIGEN_SRC, or where the system's package puts it. Prints a line that says which
# Eigen it is, or what is missing. Beside the object lies the sum of what it was made from: where nothing
# of that has changed, it is not compiled again.
set -eu

here=$(CDPATH='' cd -- "$(dirname -- "$0")" && pwd)
object=$1
eigen=${EIGEN_SRC:-/usr/include/eigen3}
macros=$eigen/Eigen/src/Core/util/Macros.h

none() {
    echo "Eigen: not measured, since $1"
    rm -f "$object.sum"
    cc -O2 -c "$here/none.c" -o "$object"
    exit
}

[ -f "$eigen/Eigen/Dense" ] || none "it is not in $eigen (the system's package 'libeigen3-dev')"
command -v g++ >/dev/null || none "g++ is missing (the system's package 'g++')"

# Plain x86-64, as ours is; elsewhere what the compiler takes for granted.
flags='-std=c++17 -O3 -DNDEBUG'
[ "$(uname -m)" != x86_64 ] || flags="$flags -march=x86-64"

number() { sed -n "s/^#define EIGEN_$1_VERSION //p" "$macros"; }
version="$(number WORLD).$(number MAJOR).$(number MINOR)"
compiler=$(g++ --version | head -1)
sum=$({ echo "$flags $eigen $version $compiler"; cat "$here/build.sh" "$here/filters.cpp"; } | sha256sum | cut -d' ' -f1)
if [ ! -f "$object" ] || [ "$(cat "$object.sum" 2>/dev/null || true)" != "$sum" ]; then
    rm -f "$object.sum"
    # shellcheck disable=SC2086
    g++ $flags -isystem "$eigen" -c "$here/filters.cpp" -o "$object"
    echo "$sum" >"$object.sum"
fi
echo "Eigen: $version, $compiler, $flags"
