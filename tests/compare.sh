#!/usr/bin/env bash
# Compares the program rack with the reference in tests/reference, byte for byte,
# on COUNT random texts (1200 if not given).
#
#   tests/compare.sh [COUNT]
#
# RACK is the path of the program; if it is not set, crates/rack/out/rack under the
# root of the repository, which `rt run` in crates/rack makes.  SEED (1 if not set)
# chooses another series of texts.
#
# Exit 0: no difference.  Exit 1: the first difference, with the text's number.
# Exit 2: the comparison could not be made.
set -u

root=$(cd "$(dirname "$0")/.." && pwd)
rack=${RACK:-$root/crates/rack/out/rack}
count=${1:-1200}
seed=${SEED:-1}

case $count in
'' | *[!0-9]*)
    echo "compare: COUNT is a number, not '$count'" >&2
    exit 2
    ;;
esac
if [ ! -x "$rack" ]; then
    echo "compare: there is no program at $rack (rt run in crates/rack makes it, or set RACK)" >&2
    exit 2
fi

folder=$(mktemp -d) || exit 2
trap 'rm -rf "$folder"' EXIT
for name in reference generate; do
    rustc -O --edition 2021 -o "$folder/$name" "$root/tests/reference/$name.rs" || exit 2
done

refused=0 satisfiable=0 unknown=0 smoothed=0 differences=0 number=0
summary() {
    echo "texts $number, refused $refused, satisfiable $satisfiable, unknown $unknown," \
        "with smoothing $smoothed, differences $differences"
}

while [ "$number" -lt "$count" ]; do
    number=$((number + 1))
    "$folder/generate" "$seed" "$number" >"$folder/text" || exit 2
    "$folder/reference" facts <"$folder/text" >"$folder/expected" 2>"$folder/facts" || exit 2
    "$rack" <"$folder/text" >"$folder/given" 2>"$folder/errors"
    status=$?
    if ! cmp -s "$folder/expected" "$folder/given"; then
        differences=1
        echo "compare: text $number of seed $seed differs (rack ended with $status)"
        echo "reference:"
        cat "$folder/expected"
        echo "rack:"
        cat "$folder/given" "$folder/errors"
        kept=$(mktemp) && cp "$folder/text" "$kept" && echo "the text is in $kept"
        summary
        exit 1
    fi
    case $(<"$folder/expected") in
    'c refused '*) refused=$((refused + 1)) ;;
    *'s SATISFIABLE'*) satisfiable=$((satisfiable + 1)) ;;
    *) unknown=$((unknown + 1)) ;;
    esac
    [ "$(<"$folder/facts")" = 'smoothings 0' ] || smoothed=$((smoothed + 1))
done
summary
