#!/bin/sh
# Two programs that the types have to refuse: one adds to a sealed survey, one states an open survey.
# Each is an edit of crates/soil_survey, which passes without it. The compiler refuses such a program
# before anything is to be proved, so that a must-fail edit cannot show it. Each is tried on a copy.
set -eu
root=$(cd "$(dirname "$0")/.." && pwd)
work=$(mktemp -d)
trap 'rm -rf "$work"' EXIT
(cd "$root" && tar cf - --exclude=out crates crates.txt) | (cd "$work" && tar xf -)
failed=0
for edit in "$root"/.ci/refused/*.edit; do
    name=$(basename "$edit" .edit)
    file=crates/soil_survey/$(sed -n 's/^file: //p' "$edit")
    OLD=$(sed -n 's/^old: //p' "$edit") NEW=$(sed -n 's/^new: //p' "$edit") awk '
        { at = index($0, ENVIRON["OLD"]) }
        at { $0 = substr($0, 1, at - 1) ENVIRON["NEW"] substr($0, at + length(ENVIRON["OLD"])); found++ }
        { print }
        END { exit found != 1 }' "$root/$file" >"$work/$file"
    if (cd "$work/crates/soil_survey" && rt check) >"$work/log" 2>&1; then
        echo "refused $name: NOT REFUSED"
        failed=1
    elif grep -qF "$(sed -n 's/^says: //p' "$edit")" "$work/log"; then
        echo "refused $name: as it must be"
    else
        echo "refused $name: for another reason"
        tail -n 5 "$work/log"
        failed=1
    fi
done
exit $failed
