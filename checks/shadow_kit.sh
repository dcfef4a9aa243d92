#!/bin/sh
# Makes FOLDER/kit, the Rattle kit by links, for a check that wants it a little otherwise:
#
#   checks/shadow_kit.sh FOLDER         a kit beside which nothing is kept: what checks on this machine proved
#                                       before is not found, so that one proves from nothing
#   checks/shadow_kit.sh FOLDER KEPT    the same, whose clang first copies the bitcode that it is handed to
#                                       the file KEPT, the last one in the place of those before
#
# FOLDER/kit/bin/rt is then called in the place of `rt`. FOLDER is a temporary one outside the repository,
# since `rt ci` refuses links inside it. Tried with kit 13f.
set -eu

fail() {
    echo "shadow_kit: $1" >&2
    exit 2
}

# Links all of FROM to TO but for the parts that are named.
link_all() { # FROM TO WITHOUT..
    from=$1 to=$2
    shift 2
    mkdir -p "$to"
    for part in "$from"/*; do
        name=${part##*/}
        case " $* " in *" $name "*) ;; *) ln -s "$part" "$to/$name" ;; esac
    done
}

[ $# -eq 1 ] || [ $# -eq 2 ] || fail 'usage: checks/shadow_kit.sh FOLDER [KEPT]'
[ -d "$1" ] || fail "there is no folder $1"
sh "$(dirname -- "$0")/kit.sh" || exit 2
kit=$(dirname "$(dirname "$(readlink -f "$(command -v rt)")")")
[ -f "$kit/bin/rtlib.py" ] && [ -x "$kit/toolchain/bin/clang" ] || fail "the kit at $kit has other folders than this script knows"
made=$1/kit
link_all "$kit" "$made" bin toolchain
# The commands take the folder above their own file, and not above a link to it, for the kit.
link_all "$kit/bin" "$made/bin" rt rtlib.py
cp "$kit/bin/rt" "$kit/bin/rtlib.py" "$made/bin/"
link_all "$kit/toolchain" "$made/toolchain" bin
link_all "$kit/toolchain/bin" "$made/toolchain/bin" clang
if [ $# -eq 1 ]; then
    ln -s "$kit/toolchain/bin/clang" "$made/toolchain/bin/clang"
else
    cat >"$made/toolchain/bin/clang" <<END
#!/bin/sh
for word in "\$@"; do
    case \$word in *.bc) cp "\$word" '$2' ;; esac
done
exec '$kit/toolchain/bin/clang' "\$@"
END
    chmod +x "$made/toolchain/bin/clang"
fi
