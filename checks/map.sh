#!/bin/sh
# Says whether docs/PROMISES.md is true of the crates: each file that it names is there, and each
# must-fail edit is named in it, beside its crate. Prints what is not so; the exit status is 1 then.
set -eu
cd "$(dirname -- "$0")/.."
wrong=0

# Files below crates/, as `grids/specs/Cells.antt`.
for file in $(grep -oE '`[a-z_]+/(specs|proofs|src)/[A-Za-z0-9_/]+\.(antt|rt)' docs/PROMISES.md | tr -d '`' | sort -u); do
    [ -f "crates/$file" ] || {
        echo "map: docs/PROMISES.md names $file, which is not there"
        wrong=1
    }
done

# Edits, as `grids: \`label\`` somewhere in the page.
for edit in crates/*/must-fail/*.edit; do
    label=$(basename "$edit" .edit)
    grep -q "\`$label\`" docs/PROMISES.md || {
        echo "map: docs/PROMISES.md does not name ${edit#crates/}"
        wrong=1
    }
    case $(head -n 1 "$edit") in
    '# '*) ;;
    *)
        echo "map: ${edit#crates/} does not begin with the input that shows it"
        wrong=1
        ;;
    esac
done

# Labels in the last column of a table of edits that are no edit any more.
for label in $(awk -F ' \\| ' '
    !/^\|/ { edits = 0; head = 1; next }
    head { head = 0; edits = /[Ee]dit|Tried by/; next }
    edits { print $NF }' docs/PROMISES.md | grep -oE '`[a-z0-9_]+`' | tr -d '`' | sort -u); do
    ls crates/*/must-fail/"$label".edit >/dev/null 2>&1 || [ -d "crates/$label" ] || {
        echo "map: docs/PROMISES.md names the edit $label, which is not there"
        wrong=1
    }
done
[ "$wrong" -ne 0 ] || echo 'map: every file and every edit of docs/PROMISES.md is there, and no edit is left out'
exit "$wrong"
