#!/usr/bin/env bash
# Compares each charts/NAME.tsv with the table of the code and with that of the definition, row by row: number, tag, parent, status, repeats.
# Row 0, the message itself, is no row of the guide: UNH, outside, M, 1.
set -u
cd "$(dirname "$0")/.." || exit 2
status=0
for tsv in charts/*.tsv; do
    name=$(basename "$tsv" .tsv)
    want=$(echo "0 UNH outside M 1"; awk -F'\t' '{ print $1, $3, $4, $5, $6 }' "$tsv")
    code=$(sed -n 's/^    \[b"\([A-Z]*\)", \([0-9A-Z]*\), [0-9]*, \([A-Z]\), \([0-9]*\)\], \/\/ \([0-9]*\).*$/\5 \1 \2 \3 \4/p' "crates/$name/src/lib.rt" |
        sed 's/ OUTSIDE / outside /')
    definition=$(sed -n 's/^    entry "\([A-Z]*\)" \([0-9a-z]*\) "\([A-Z]\)" \([0-9]*\) ∷  -- \([0-9]*\).*$/\5 \1 \2 \3 \4/p' "crates/$name/specs/Table.antt")
    diff <(echo "$want") <(echo "$code") >&2 || { echo "$name: the code's table differs from $tsv" >&2; status=1; }
    diff <(echo "$want") <(echo "$definition") >&2 || { echo "$name: the definition's table differs from $tsv" >&2; status=1; }
    echo "$name: $(echo "$want" | wc -l) rows"
done
exit $status
