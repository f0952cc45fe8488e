# Sourced by the gate: what the desk's program answers. $program is the command, by an absolute path, $how says which build it is.
. tests/samples.sh
# The report's lines, as far as the check's words tell the same: numbers, segments and offsets of refusals, and counts.
told_by_report() { awk '$3 == "NO" { print "no", $4; if ($5 > 0) print "at", $5, $6 } $3 == "OK" { print "ok", $4, $5, $6 } $1 == "OPEN" { print "no", $3 } $1 == "END" { print "end", $2, $4; if ($5 != 0) print "no", $5 }' "$1"; }
told_by_check() {
    sed -n 's/^.*refused, number \([0-9]*\):.*/no \1/p
        s/^    \(byte .* in \)\{0,1\}segment \([0-9]*\), at byte offset \([0-9]*\) of the message.*/at \2 \3/p
        s/^  accepted: \(debit advice, \)\{0,1\}\([0-9]*\) segments*, \([0-9]*\) [a-z]*, \([0-9]*\) [a-z]*$/ok \2 \3 \4/p
        s/^The file holds \([0-9]*\) messages* and \([0-9]*\) segments* outside.*/end \1 \2/p' "$1"
}
for edi in samples/*.edi; do
    name=${edi%.edi}
    $program check "$edi" >"$log/check" 2>"$log/err"
    got=$?
    ok=1
    [ "$got" = "$(sample_status "$name")" ] || ok=0
    case $(basename "$name") in
    refused_14 | refused_14_b | open_1) ;; # its lists and its room are longer than the report's
    *) # the same, and the first ten strays shown
        [ "$(told_by_report "$name.txt")" = "$(told_by_check "$log/check")" ] || ok=0
        strays=$(awk '$1 == "END" { print ($4 > 10 ? 10 : $4) }' "$name.txt")
        [ "$(grep -c '^    at byte offset [0-9]* of the file: ' "$log/check")" = "${strays:-0}" ] || ok=0
        ;;
    esac
    if [ "$ok" = 1 ] && [ ! -s "$log/err" ]; then good "check $edi, $how"; else bad "check $edi, $how (status $got)"; cat "$log/check" "$log/err"; fi
done
says() { # WHAT FILES.. : the check of these files says the lines of $log/want, in order
    local what=$1
    shift
    $program check "$@" >"$log/check" 2>"$log/err"
    if grep -Fxf "$log/want" "$log/check" | cmp -s - "$log/want"; then good "check: $what, $how"; else bad "check: $what, $how"; cat "$log/check" "$log/err"; fi
}
# Totals and currencies, added up by hand: 1250,25 and 500.25; 300. Then 1750 and ,5; ,75. An advice has none.
printf '    order 1: 1750.500 EUR\n    order 2: 300.000 EUR\n  accepted: debit advice, 34 segments, 2 debits, 3 transactions\n' >"$log/want"
says "totals of an order, none of an advice" samples/order_and_advice.edi
printf '    order 1: 1750.500 EUR\n    order 2: 0.750 EUR\n' >"$log/want"
says "totals below one" samples/half.edi
# Of a tag of 600 letters 90 are shown and marked, of a segment with a bad byte far inside the 90 around it.
many() { head -c "$1" /dev/zero | tr '\0' "$2"; }
sed "s/LXN+2/$(many 600 X)+2/" samples/damaged_lin.edi >"$log/tag.edi"
{ many 4 ' '; many 90 X; printf '...\n'; many 4 ' '; many 90 '^'; echo; } >"$log/want"
says "a long tag" "$log/tag.edi"
sed "s/PUMP SERVICE FEBRUARY/$(many 200 A)\x07$(many 200 B)/" samples/good.edi >"$log/byte.edi"
{ printf '    ...'; many 30 A; printf '\\x07'; many 59 B; printf '...\n    '; many 33 ' '; echo '^^^^'; } >"$log/want"
says "a byte in a long text" "$log/byte.edi"
# A file that does not open is shown where it is wrong, at its end or its beginning.
echo "The file ends with: ...$(tail -c 60 samples/open_4.edi)" >"$log/want"
says "the end of a file that was cut off" samples/open_4.edi
printf 'The file begins with: \\xEF\\xBB\\xBF%s...\n' "$(head -c 60 samples/open_3_c.edi | tail -c 57)" >"$log/want"
says "the beginning of a file that does not open" samples/open_3_c.edi
# Released letters are those letters.
sed "s/LIN+1'/LIN+?1'/; s/MOA+9:300:EUR'/MOA+9:300:E?UR'/g" samples/good.edi >"$log/released.edi"
printf '    order 1: 1750.500 EUR\n    order 2: 300.000 EUR\n' >"$log/want"
says "released letters" "$log/released.edi"
# A mark stands under the place.
printf "    LXN+2'\n    ^^^\n" >"$log/want"
says "a mark under a segment" samples/damaged_lin.edi
printf '    NAD+BE+++\\xC3\\x89COLE DU PUITS+MARKET SQUARE 1+FULDA++36037+DE'"'"'\n                 ^^^^\n' >"$log/want"
says "a mark under a byte" samples/refused_10.edi
# README shows what the check says of damaged_lin, line by line.
sed -n '/^    \$ twineherald check samples\/damaged_lin.edi$/,/^The exit status/p' README.md | sed '1d; $d; s/^    //' | sed '$d' >"$log/want"
$program check samples/damaged_lin.edi >"$log/check" 2>"$log/err"
if [ -s "$log/want" ] && cmp -s "$log/want" "$log/check"; then good "check: README's example, $how"; else bad "check: README's example, $how"; diff "$log/want" "$log/check"; fi
# Strays by their offsets, as grep -ob finds them.
grep -obaE "NAD\+MS[^']*'|FTX[^']*'|LIN\+2'" samples/strays.edi | sed 's/^\([0-9]*\):/    at byte offset \1 of the file: /' >"$log/want"
says "the strays" samples/strays.edi
# What the guide lets stand: after a DTM under LIN its RFF; after two RFF; after the FII under LIN, whose CTA and COM are never used; after UNH.
for want in "refused_16:RFF (SG4)" "refused_16_d:BUS (SG4), FCA (SG4), MOA (SG5)" "refused_16_b:NAD (SG7), INP (SG8), GIS (SG9), PRC (SG10), SEQ (SG11)" "example:BGM"; do
    echo "    Here could stand: ${want#*:}" >"$log/want"
    says "what could stand in ${want%%:*}" "samples/${want%%:*}.edi"
done
# The same in other service characters: after the DTM of the message.
sed 's/LIN\*1/LXN*1/' samples/custom_una.edi >"$log/una.edi"
echo '    Here could stand: RFF (SG1), FII (SG2), NAD (SG3), LIN (SG4)' >"$log/want"
says "what could stand under other service characters" "$log/una.edi"
# The same where a long text lets only a few tags be asked about at once; and nothing where one more segment would be one too many.
{ sed "s/KWT5102-1'.*//" samples/damaged_lin.edi; head -c 300000 /dev/zero | tr '\0' X; sed "s/KWT5102-1'/\n'/" samples/damaged_lin.edi | tail -n +2; } | tr -d '\n' >"$log/wide.edi"
printf '    Here could stand: FII (SG12), NAD (SG13), INP (SG14), GIS (SG15), PRC (SG16), SEQ (SG11),\n    LIN (SG4), CNT\n' >"$log/want"
says "what could stand after a long text" "$log/wide.edi"
{
    printf "UNB+UNOC:3+A+B+240306:0705+R'UNH+1+PAYMUL:D:96A:UN'BGM'DTM'LIN'DTM'RFF'MOA'FII'"
    for k in {1..3330}; do printf "SEQ'MOA'RFF'"; done
    printf "UNT'UNZ+1+R'"
} >"$log/full.edi"
$program check "$log/full.edi" >"$log/check" 2>"$log/err"
if [ $? = 1 ] && grep -q '^    segment 9999, ' "$log/check" && grep -q 'number 16:' "$log/check" && ! grep -q 'Here could stand' "$log/check" && [ ! -s "$log/err" ]; then
    good "check: what could stand in a full message, $how"
else
    bad "check: what could stand in a full message, $how"
    cat "$log/check" "$log/err"
fi
# One message for each row of a chart that may be used: every such row before it once, in the chart's order, and a damaged tag in its place.
# It is refused there, and the row is among those that could stand there, by tag and group.
every_row() { # CHART TYPE -> the file; rows into $log/rows
    awk -F'\t' -v type="$2" -v rows="$log/rows" '
        { name[$1] = $2; if ($2 == $3 && $5 != "N") { tag[++n] = $3; group[n] = $4 == 0 ? "" : " (" name[$4] ")" } }
        END {
            printf "UNB+UNOC:3+A+B+240306:0705+R\047"
            for (k = 2; k < n; k++) {
                printf "UNH+%d+%s:D:96A:UN\047", k, type
                for (i = 2; i < k; i++) printf "%s\047", tag[i]
                printf "XXX\047UNT\047"
                print k, tag[k] group[k] >rows
            }
            printf "UNZ+%d+R\047", n - 2
        }' "charts/$1.tsv"
}
for chart in "paymul PAYMUL 79" "debmul DEBMUL 85"; do
    read -r chart type rows <<<"$chart"
    every_row "$chart" "$type" >"$log/rows.edi"
    $program check "$log/rows.edi" >"$log/check" 2>"$log/err"
    # the lists of what could stand are put on one line each, after the segment; no item is told without its group, save of the message itself
    awk '/^    segment / { at = $2 + 0 } /^    Here could stand: / { on = 1; line = $0; sub(/^ *Here could stand: /, "", line); next }
        on && /^    What to do/ { print at, line; on = 0 } on { sub(/^ */, ""); line = line " " $0 }' "$log/check" >"$log/lists"
    if paste -d '|' "$log/rows" "$log/lists" | awk -F'|' '{ k = index($1, " "); j = index($2, " "); row = substr($1, k + 1); list = ", " substr($2, j + 1) ","
            if (substr($1, 1, k) != substr($2, 1, j) || !index(list, ", " row ",")) { print; wrong = 1 }
            gsub(/ \(SG[0-9]+\)/, "()", list); gsub(/ [A-Z]+\(\),/, "", list); gsub(/ (BGM|DTM|CNT|UNT),/, "", list)
            if (list != ",") { print; wrong = 1 } }
            END { exit wrong || NR != '"$rows"' }'; then
        good "check: what could stand, every row of $chart, $how"
    else
        bad "check: what could stand, every row of $chart, $how"
    fi
done
# Several files, standard input and a summary.
$program check samples/good.edi - samples/none samples/damaged_lin.edi <samples/half.edi >"$log/check" 2>"$log/err"
got=$?
if [ $got = 2 ] && [ "$(tail -n 1 "$log/check")" = "4 files: 2 accepted, 1 refused, 1 not read. 5 messages: 4 accepted, 1 refused." ] &&
    [ "$(grep '^File ' "$log/check" | tr '\n' ' ')" = "File samples/good.edi File standard input File samples/damaged_lin.edi " ] &&
    [ "$(wc -l <"$log/err")" = 1 ] && grep -q '^twineherald: cannot read samples/none: ' "$log/err"; then
    good "check: several files, $how"
else
    bad "check: several files, $how (status $got)"
    cat "$log/check" "$log/err"
fi
# Rewriting: twice is the same as once, and every message keeps its number and segment.
for edi in samples/*.edi; do
    $program rewrite "$edi" >"$log/once" 2>/dev/null || continue
    $program rewrite - <"$log/once" >"$log/twice" 2>/dev/null
    $RUN target/bin/payreport <"$log/once" | awk '$3 == "NO" { $6 = "" } { print }' >"$log/after"
    awk '$3 == "NO" { $6 = "" } { print }' "${edi%.edi}.txt" >"$log/before"
    case $edi in */open_1.edi) cp "$log/after" "$log/before" ;; esac
    if cmp -s "$log/once" "$log/twice" && cmp -s "$log/before" "$log/after"; then good "rewrite $edi, $how"; else bad "rewrite $edi, $how"; fi
done
# Bad input and bad output: a word on standard error and status 2, or a refusal and status 1.
answers() { # WHAT STATUS WORD: the last command's status and one line on standard error that has the word, none if that is empty
    local got=$?
    if [ $got = "$2" ] && if [ -n "$3" ]; then [ "$(grep -c . "$log/err")" = 1 ] && grep -q "$3" "$log/err"; else [ ! -s "$log/err" ]; fi; then
        good "$1, $how"
    else
        bad "$1, $how (status $got)"
        cat "$log/err"
    fi
}
refuses() { # WHAT NUMBER: as answers, with status 1 and that refusal on standard output
    answers "$1" 1 ""
    grep -qE "refused, number $2:|data-number=\"$2\"" "$log/out" || bad "$1: not refused with $2, $how"
}
for wrong in "" check page rewrite "page a b" "rewrite a b" "check --all" "--all" "print a" "check --"; do
    $program $wrong >"$log/out" 2>"$log/err"
    [ $? = 2 ] && grep -q '^usage: twineherald check FILE' "$log/err" && [ ! -s "$log/out" ] && good "usage: '$wrong', $how" || bad "usage: '$wrong', $how"
done
: >"$log/empty"
head -c 1048577 /dev/zero >"$log/long"
cp samples/good.edi "$log/--help"
for command in check page rewrite; do
    $program $command samples >"$log/out" 2>"$log/err"; answers "$command: a folder" 2 'cannot read samples: '
    $program $command /proc/self/mem >"$log/out" 2>"$log/err"; answers "$command: a file that cannot be read" 2 'cannot read /proc/self/mem: '
    $program $command - <&- >"$log/out" 2>"$log/err"; answers "$command: no standard input" 2 'cannot read standard input: '
    $program $command samples/good.edi >/dev/full 2>"$log/err"; answers "$command: a full disk" 2 'cannot write the answer'
    $program $command samples/good.edi >&- 2>"$log/err"; answers "$command: no standard output" 2 'cannot write the answer'
    { sleep 0.3; $program $command samples/good.edi 2>"$log/err"; echo $? >"$log/status"; } | true
    (exit "$(cat "$log/status")"); answers "$command: a pipe that nobody reads" 2 'cannot write the answer'
    (cd "$log" && exec $program $command -- --help) >"$log/out" 2>"$log/err"; answers "$command: a file named --help" 0 ''
done
for command in check page; do
    $program $command "$log/empty" >"$log/out" 2>"$log/err"; refuses "$command: an empty file" 3
    $program $command "$log/long" >"$log/out" 2>"$log/err"; refuses "$command: a file over the limit" 1
    $program $command - </dev/zero >"$log/out" 2>"$log/err"; refuses "$command: a file without an end" 1
done
$program rewrite "$log/empty" >"$log/out" 2>"$log/err"; answers "rewrite: an empty file" 1 'refused, number 3:'
$program rewrite "$log/long" >"$log/out" 2>"$log/err"; answers "rewrite: a file over the limit" 1 'refused, number 1:'
$program --version >"$log/out" 2>"$log/err"; answers "version" 0 ''
[ "$(cat "$log/out")" = "twineherald $(cat VERSION)" ] && good "version: that of VERSION, $how" || bad "version: that of VERSION, $how"
$program --help >"$log/out" 2>"$log/err"; answers "help" 0 ''
