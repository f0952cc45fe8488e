# Sourced by the gate: programs/refusals.txt, what tools/words makes of it, and its examples by payreport.
tools/words page >"$log/page" && cmp -s "$log/page" docs/REFUSALS.md && good "words: docs/REFUSALS.md" || bad "words: docs/REFUSALS.md is not what 'tools/words page' makes"
# The same numbers with the same names as the header, in its order.
sed -n '/TWINEHERALD_ACCEPTED = 0/,/};/s/^ *TWINEHERALD_\([A-Z_]*\) = \([1-9][0-9]*\).*/\2 \1/p' include/twineherald.h >"$log/header"
tools/words c | sed 's/^{\([0-9]*\), "\([A-Z_]*\)", ".*", ".*"},$/\1 \2/' >"$log/numbers"
if [ -s "$log/header" ] && cmp -s "$log/header" "$log/numbers"; then good "words: the header's numbers and names"; else bad "words: the header's numbers and names"; diff "$log/header" "$log/numbers"; fi
# An example is true: its sample holds 'before' and is refused with that number; with 'after' in place of the first, nothing is refused.
words_example() { # NUMBER SAMPLE BEFORE AFTER
    local LC_ALL=C text before after
    printf -v before '%b' "$3"
    printf -v after '%b' "$4"
    IFS= read -r -d '' text <"samples/$2.edi"
    [[ $text == *"$before"* ]] || return 1
    $RUN target/bin/payreport <"samples/$2.edi" | grep -qE "^(MSG [0-9]+ NO $1 [0-9]+ [0-9]+|OPEN NO $1|END [0-9]+ [0-9]+ [0-9]+ $1)\$" || return 1
    printf '%s' "${text%%"$before"*}$after${text#*"$before"}" >"$log/mended"
    $RUN target/bin/payreport <"$log/mended" >"$log/out" || return 1
    grep -q '^MSG ' "$log/out" && grep -q '^END ' "$log/out" && ! grep -qvE '^(MSG [0-9]+ OK [0-9]+ [0-9]+ [0-9]+|END [0-9]+ [0-9]+ [0-9]+ 0)$' "$log/out"
}
tools/words examples >"$log/examples"
while IFS=$'\t' read -r number sample before after; do
    if words_example "$number" "$sample" "$before" "$after"; then good "words: example of $number"; else bad "words: example of $number"; fi
done <"$log/examples"
# Only where no line of a file can show it has a number no sample.
without=$(cut -f 1 "$log/examples" | cat - <(cut -d ' ' -f 1 "$log/header") | sort -n | uniq -u | tr '\n' ' ')
[ "$without" = "1 8 9 13 14 " ] && good "words: numbers without a sample" || bad "words: numbers without a sample: $without"
# Files that are no list of refusals are refused, with the line, and nothing is made of them.
words_refuses() { # WHAT LINE: $log/broken is refused there
    tools/words page "$log/broken" >"$log/out" 2>"$log/err"
    if [ $? = 2 ] && [ ! -s "$log/out" ] && grep -q "line $2: " "$log/err"; then good "words: $1"; else bad "words: $1"; cat "$log/err"; fi
}
at=$(grep -n '^number: 16$' programs/refusals.txt | cut -d : -f 1)
awk '/^[a-z]+: / { out = 0 } /^number: / { n = $2 } /^do: / && n == 16 { out = 1 } !out' programs/refusals.txt >"$log/broken"
words_refuses "no 'do'" "$at"
sed 's/^number: 17$/number: 16/' programs/refusals.txt >"$log/broken"
words_refuses "a number twice" "$(grep -n '^number: 17$' programs/refusals.txt | cut -d : -f 1)"
sed 's/^number: 16$/number: 33/' programs/refusals.txt >"$log/broken"
words_refuses "numbers out of order" "$(grep -n '^number: 17$' programs/refusals.txt | cut -d : -f 1)"
sed 's/^name: PLACEMENT$/title: PLACEMENT/' programs/refusals.txt >"$log/broken"
words_refuses "an unknown key" $((at + 1))
sed "$((at + 2))s/\$/\xe9/" programs/refusals.txt >"$log/broken"
words_refuses "a byte outside ASCII" $((at + 2))
