#!/usr/bin/env bash
# Tries the wrong bodies of bench/edits, beside those of a crate's must-fail/, which rt ci tries: the prover has to refuse
# each. They have the same format, and stand here because a crate that has some costs a run of rt ci one more check.
#
#     bench/edits.sh [CRATE..]      without names: of each crate that has some
#
# Crates are taken as the last commit has them, and edits as they stand here. What rt check kept of these crates on this
# machine is begun with. The status is 1 where one is not refused, or cannot be tried. This is no part of what `.ci/run`
# tries.
set -u
shopt -s nullglob

top=$(dirname "$(dirname "$(readlink -f "${BASH_SOURCE[0]}")")")
cd "$top" || exit 1
names=("$@")
if [ ${#names[@]} -eq 0 ]; then
    names=(bench/edits/*/)
    names=("${names[@]%/}")
    names=("${names[@]##*/}")
fi

room=$(mktemp -d) || exit 1
trap 'rm -rf "$room"' EXIT
copy=$room/copy
git clone -q . "$copy" || exit 1

tried=0
refused=0
for name in "${names[@]}"; do
    edits=(bench/edits/"$name"/*.edit)
    tried=$((tried + ${#edits[@]}))
    if [ ${#edits[@]} -eq 0 ] || [ ! -d "$copy/crates/$name" ]; then
        echo "$name: no crate of this name has edits in bench/edits"
        tried=$((tried + 1))
        continue
    fi
    rm -rf "$copy/crates/$name/must-fail"
    mkdir "$copy/crates/$name/must-fail"
    cp "${edits[@]}" "$copy/crates/$name/must-fail/"
    (cd "$copy" && rt must-fail "$name") > "$room/said" 2>&1
    grep "must-fail $name/" "$room/said" || cat "$room/said"
    refused=$((refused + $(grep -c ': refused, as it must be' "$room/said")))
done
echo "edits: $refused of $tried refused"
[ "$refused" -eq "$tried" ]
