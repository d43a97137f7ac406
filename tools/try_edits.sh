#!/bin/sh
# Tries edits, which turn the meaning of a public call: the prover must refuse each.
#
#   tools/try_edits.sh              all edits: those of edits/NAME and those of crates/NAME/must-fail
#   tools/try_edits.sh NAME ..      the edits of these crates
#   tools/try_edits.sh --changed    the edits of the crates whose clauses are not those that clauses.txt has
#   tools/try_edits.sh --check      no edit: only whether each can be applied, by text
#
# `rt check` first proves each crate where it is, over what was kept in out/ there, and keeps the rest. (`rt ci` keeps nothing for other
# commands.) The edits are then tried in a copy of that, where a check of one takes 10 to 40 seconds.
. "$(dirname "$0")/common.sh"
need python3
python3 "$top/tools/edits.py" "$top" || exit

case "$1" in
--check)
    exit
    ;;
--changed)
    names=$(python3 "$top/tools/clauses.py" --changed) || exit
    ;;
-*)
    echo "usage: $0 [--check | --changed | NAME ..]" >&2
    exit 2
    ;;
'')
    names=$(cd "$top" && ls -d crates/*/must-fail edits/* | sed 's,/must-fail$,,; s,.*/,,' | sort -u)
    ;;
*)
    names=$*
    ;;
esac

for name in $names; do
    [ -d "$top/crates/$name" ] || {
        echo "$0: no crate $name" >&2
        exit 2
    }
done
need rt
PYTHONPATH=$top/tools exec python3 -B "$top/tools/try_edits.py" "$top" $names
