#!/usr/bin/env bash
# Proves crates, lowest first, and prints a line for each instead of all that `rt` says:
#
#   checks/quiet.sh LOG [NAME..]    the named crates and what they stand on, or all of them
#
#   3 of 18: kalman, 12 s
#
# In a crate's folder `rt lib` proves a library for those above it, `rt check` a static library, and `rt run` a
# program, which is then run on the file stdin beside its src/ and held to the file stdout there; it ends in
# target/bin, and what it wrote in target/log/NAME.stdout. Crates that need nothing of each other are proved
# side by side, as many as there are cores, four at most, and memory for them, or RT_JOBS. After twenty seconds
# without a line it says what is being proved. Where a crate is not proved, or a program fails, what was said of
# it is shown. All that was said is in LOG, with a line for each crate that says how it went. The exit status is
# 0 where all is proved and ran, else 1, and 2 where nothing was judged.
set -u
cd "$(dirname -- "$0")/.." || exit 2
sh checks/kit.sh || exit 2
[ $# -ge 1 ] || {
    echo 'usage: checks/quiet.sh LOG [NAME..]' >&2
    exit 2
}
log=$1
shift
mkdir -p "$(dirname -- "$log")" target/log target/bin || exit 2

# A line for each crate that the names reach, lowest first: its name, 'static' or 'plain', and those of these
# that it stands on itself.
plan=$(WANTED="$*" awk '
    function visit(n,    a, k, m, line) {
        if (n in seen) return
        seen[n] = 1
        line = n " " kind[n]
        m = split(deps[n], a, " ")
        for (k = 1; k <= m; k++) if (a[k] in deps) { visit(a[k]); line = line " " a[k] }
        print line
    }
    { sub(/#.*/, "") }
    /:/ {
        n = $1; sub(/:.*/, "", n)
        kind[n] = /^[^:]*[ \t]staticlib[ \t:]/ ? "static" : "plain"
        d = $0; sub(/^[^:]*:/, "", d); deps[n] = d
        order[++count] = n
    }
    END {
        w = split(ENVIRON["WANTED"], want, " ")
        for (k = 1; k <= w; k++) if (!(want[k] in deps)) { print "quiet: crates.txt has no crate " want[k] > "/dev/stderr"; exit 2 }
        if (w == 0) for (k = 1; k <= count; k++) visit(order[k])
        for (k = 1; k <= w; k++) visit(want[k])
    }' crates.txt) || exit 2
names=() done=0 failed=0 last=0
declare -A kind deps state pid began
while read -r name word below; do
    names+=("$name")
    kind[$name]=$word deps[$name]=$below state[$name]=waits
    [ ! -f "crates/$name/src/main.rt" ] || kind[$name]=program
done <<<"$plan"
total=${#names[@]}

# As many at a time as there are cores, four at most, and 3 GB for each.
at_once=${RT_JOBS:-}
case $at_once in
'' | 0 | *[!0-9]*)
    at_once=$(nproc 2>/dev/null || echo 1)
    [ "$at_once" -le 4 ] || at_once=4
    room=$(awk '/^MemAvailable:/ { print int($2 / 3000000) }' /proc/meminfo 2>/dev/null)
    [ "${room:-4}" -ge "$at_once" ] || at_once=$room
    [ "$at_once" -ge 1 ] || at_once=1
    ;;
esac

# What was said of a crate that failed, but for the lines of what was proved: the first 40.
tell() { # NAME
    grep -vE '^((fn|struct|enum) .*: proved|checked .*, [0-9]+ of [0-9]+|(logic|library|statements|crate|axioms) .*)$' "target/log/$1.log" |
        sed -e 's/^/    /' -e '40q'
}

# Starts what proves the crate, with stdin closed or the program's own.
start() { # NAME
    local given=/dev/null words=() jobs=() word
    [ "$at_once" -eq 1 ] || jobs=(--jobs 1)
    began[$1]=$SECONDS state[$1]=runs
    case ${kind[$1]} in
    program)
        [ ! -f "crates/$1/stdin" ] || given=$PWD/crates/$1/stdin
        if [ -f "crates/$1/args" ]; then
            while IFS= read -r word || [ -n "$word" ]; do words+=("$word"); done <"crates/$1/args"
        fi
        (cd "crates/$1" && exec rt run ${jobs[@]+"${jobs[@]}"} -- ${words[@]+"${words[@]}"}) \
            <"$given" >"target/log/$1.stdout" 2>"target/log/$1.log" &
        ;;
    static) (cd "crates/$1" && exec rt check ${jobs[@]+"${jobs[@]}"}) </dev/null >"target/log/$1.log" 2>&1 & ;;
    *) (cd "crates/$1" && exec rt lib ${jobs[@]+"${jobs[@]}"}) </dev/null >"target/log/$1.log" 2>&1 & ;;
    esac
    pid[$1]=$!
}

# A line of the crate, and its line in the log.
line() { # NAME HOW
    done=$((done + 1))
    last=$SECONDS
    echo "$done of $total: $1, $2"
}

# The program was proved: whether it ran as it must. It is left in target/bin.
ran() { # NAME STATUS
    local wanted=/dev/null status=0
    [ ! -f "crates/$1/stdout" ] || wanted=crates/$1/stdout
    [ ! -f "crates/$1/status" ] || status=$(tr -d ' \n' <"crates/$1/status")
    cp "crates/$1/out/$1" "target/bin/$1" 2>/dev/null
    if [ "$2" -eq "$status" ] && cmp -s "target/log/$1.stdout" "$wanted"; then
        echo "$1 ran"
        echo "rt: $1 ran" >>"$log"
        return
    fi
    failed=1
    echo "$1 proved, and its run FAILED (exit $2): crates/$1/stdout is not what it wrote, target/log/$1.stdout, or its exit status is not $status"
    echo "rt: $1 proved, and its run FAILED (exit $2)" >>"$log"
    tell "$1"
}

# Takes up what a crate's command said and how it ended.
finish() { # NAME
    local status took=$((SECONDS - began[$1]))
    wait "${pid[$1]}"
    status=$?
    cat "target/log/$1.log" >>"$log"
    # With no change since, nothing is said of a library, and a program is only run.
    if grep -q '^logic=proved' "target/log/$1.log"; then
        state[$1]=proved
        line "$1" "$took s"
        echo "rt: $1 proved ($took s)" >>"$log"
    elif grep -q '^rt: nothing has changed since' "target/log/$1.log" || { [ "$status" -eq 0 ] && [ ! -s "target/log/$1.log" ]; }; then
        state[$1]=proved
        line "$1" unchanged
        echo "rt: $1 unchanged" >>"$log"
    elif [ "$status" -eq 0 ]; then
        state[$1]=proved
        line "$1" "$took s"
        echo "rt: $1 proved ($took s)" >>"$log"
    else
        state[$1]=failed failed=1
        line "$1" "NOT PROVED (exit $status, $took s)"
        echo "rt: $1 NOT PROVED (exit $status, $took s)" >>"$log"
        tell "$1"
        return
    fi
    [ "${kind[$1]}" != program ] || ran "$1" "$status"
}

# Whether the crate can start: 'yes', 'no', or the crate below it that failed.
ready() { # NAME
    local below
    for below in ${deps[$1]}; do
        case ${state[$below]} in
        failed) echo "$below" && return ;;
        proved) ;;
        *) echo no && return ;;
        esac
    done
    echo yes
}

# shellcheck disable=SC2317 # the trap below calls it
stop_all() {
    trap - INT TERM HUP
    for name in "${names[@]}"; do
        [ "${state[$name]}" != runs ] || kill "${pid[$name]}" 2>/dev/null
    done
    echo "stopped; what was said until then is in $log" >&2
    exit 130
}
trap stop_all INT TERM HUP

: >"$log" || exit 2
echo "proving $total crates, or as many of them as have changed; the log is $log"
SECONDS=0
while [ "$done" -lt "$total" ]; do
    running=()
    for name in "${names[@]}"; do
        [ "${state[$name]}" = runs ] || continue
        if kill -0 "${pid[$name]}" 2>/dev/null; then running+=("$name"); else finish "$name"; fi
    done
    for name in "${names[@]}"; do
        [ "${#running[@]}" -lt "$at_once" ] || break
        [ "${state[$name]}" = waits ] || continue
        how=$(ready "$name")
        case $how in
        no) ;;
        yes) start "$name" && running+=("$name") ;;
        *)
            state[$name]=failed failed=1
            line "$name" "NOT PROVED: its library $how failed"
            echo "rt: $name NOT PROVED: its library $how failed" >>"$log"
            ;;
        esac
    done
    if [ $((SECONDS - last)) -ge 20 ] && [ "${#running[@]}" -gt 0 ]; then
        echo "    $((SECONDS / 60)) min $((SECONDS % 60)) s, still at: ${running[*]}"
        last=$SECONDS
    fi
    [ "$done" -ge "$total" ] || sleep 0.1
done
if [ "$failed" -eq 0 ]; then
    echo "proved in $((SECONDS / 60)) min $((SECONDS % 60)) s"
else
    echo "failed; all that was said is in $log" >&2
fi
exit "$failed"
