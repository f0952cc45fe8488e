# Sourced by the gate: the page that the program writes of each sample, as tests/page.rs reads it. $program is the command, $how says
# which build it is, $pages how many inputs of any bytes it gets as well (0: none), $second the second program, if its answers to them
# are to be compared. What is expected of the samples stands in samples/*.txt.
. tests/samples.sh
if [ -z "${reader:-}" ]; then
    reader=target/page
    rustc -O --edition 2021 tests/page.rs -o $reader && good "page reader builds" || bad "page reader builds"
fi
# The lines of the outline for messages, opening and end. An order or an advice is one by its UNH.
page_wants() { # SAMPLE without ending
    awk -v types="$(LC_ALL=C grep -aoE '(PAY|DEB)MUL' "$1.edi" | tr '\n' ' ')" '
        BEGIN { split(types, type, " ") }
        $1 == "OPEN" { print "opening", $3 }
        $1 == "MSG" && $3 == "NO" { print }
        $1 == "MSG" && $3 == "OK" { print "MSG", $2, "OK", type[$2] == "DEBMUL" ? "advice" : "order", $5, $6 }
        $1 == "END" { print "END", $2, $4, $5 }' "$1.txt"
}
# Every marked segment stands in the file at the offset; under number 10 the byte there is marked.
page_here() { # SAMPLE without ending, OUTLINE
    awk '/^MSG/ { place = $2; number = $4; offset = $6 }
        /^  mark / && number == 10 || /^  here / && number != 10 { print place, number, offset, substr($0, 8) }' "$2" |
        while read -r place number offset text; do
            unh=$(LC_ALL=C grep -abo UNH "$1.edi" | sed -n "${place}s/:.*//p")
            tail -c +$((unh + offset + 1)) "$1.edi" >"$log/from"
            if [ "$number" = 10 ]; then
                [ "$text" = "$(head -c 1 "$log/from" | od -An -tx1 | tr a-f A-F | sed 's/ */\\x/')" ] || exit 1
            else
                [ "$(head -c ${#text} "$log/from")" = "$text" ] || exit 1
            fi
        done
}
for edi in samples/*.edi; do
    name=${edi%.edi}
    $program page "$edi" >"$log/page.html" 2>"$log/err"
    got=$?
    ok=1
    [ "$got" = "$(sample_status "$name")" ] || ok=0
    $reader check "$log/page.html" || ok=0
    $reader outline "$log/page.html" >"$log/outline" || ok=0
    case $(basename "$name") in
    refused_14 | refused_14_b | open_1) ;; # its lists and its room are longer than the report's
    *)
        grep -E '^(opening|MSG|END) ' "$log/outline" | diff - <(page_wants "$name") || ok=0
        page_here "$name" "$log/outline" || ok=0
        ;;
    esac
    if [ "$ok" = 1 ] && [ ! -s "$log/err" ]; then good "page $edi, $how"; else bad "page $edi, $how (status $got)"; cat "$log/outline" "$log/err"; fi
done
# Amounts, added up by hand: 1250,25 + 500.25; 1750 + ,5; 1999,999 + 500.001, and 0,1 + 0,2. Of an advice they are as written.
while IFS='|' read -r name amounts; do
    $program page "samples/$name.edi" >"$log/page.html"
    have=$($reader outline "$log/page.html" | sed -n 's/^  \(order\|debit\|payment\) //p' | tr '\n' '|')
    if [ "$have" = "$amounts" ]; then good "page: amounts of $name, $how"; else bad "page: amounts of $name, $how: $have"; fi
done <<'END'
good|1750.500 EUR|1250,25 EUR|500.25 EUR|300.000 EUR|300 EUR|
half|1750.500 EUR|1750 EUR|,5 EUR|0.750 EUR|.750 EUR|
equivalent|2500.000 EUR|1999,999 EUR|500.001 EUR|800.000 EUR|800,000 EUR|0.300 EUR|0,1 EUR|0,2 EUR|
advice|1750,5 EUR|1250,25 EUR|500,25 EUR|300 EUR|
END
# What the page says of values, in its order: read by hand from the samples and the guides.
missed=''
while IFS='|' read -r name words; do
    $program page "samples/$name.edi" >"$log/page.html"
    $reader text "$log/page.html" | tr '\n' ' ' >"$log/text"
    grep -qF -- "$words" "$log/text" || missed="$missed; $name: $words"
done <<'END'
good|From CLEANWELLS To ORDERBANK Date (year first) 24-03-06, 07:05 Reference CWF0306 Message 1: payment orders accepted Reference 1, 41 segments, 2 orders, 3 payments, at byte offset 52 of the file
good|Payment order CWF20240306, original (9) Dated 2024-03-06 Receiver of the message WATRDEFF Sender of the message 4000000000013 Order 1
good|Order 1 1750.500 EUR Execution requested 2024-03-08 Payment order number CWF-0301 Amount payable 1750,5 EUR Account debited DE00100200300400500600, CLEAN WELLS FUND, BREMEN Payment 1
good|Payment 1 1250,25 EUR Customer's reference CWF-0301-1 Payment reference INVOICE 2207 Account paid DE00200300400500600700, DEEP BORE DRILLING, KASSEL Details are given as documents (8) Document commercial invoice (380), 2207 Amount remitted 1250,25 EUR Dated 2024-02-21 Indicator complete information (37) Payment 2
good|Payment 2 500.25 EUR Customer's reference CWF-0301-2 Account paid DE00300400500600700800 Payee (account owner) RIVER PUMP MECHANICS, MILL LANE 4, KASSEL, 34117, DE Details are given as text (11) Text for the payee PUMP SERVICE FEBRUARY Order 2
good|Text for the payee WELL KEEPING MARCH Lines counted 2 The end of the file accepted
advice|Message 1: debit advice accepted Reference 1, 34 segments, 2 debits, 3 transactions
advice|Debit 2 300 EUR Advice advice without details (106) Posting date 2024-03-11 Posted amount 300 EUR Bank's reference OB-88002 Payment order number CWF-0302 Account debited DE00100200300400500600, CLEAN WELLS FUND, BREMEN Transaction 1 Bank ZZZ not given Amount ZZZ not given Lines counted 2
equivalent|Charges each pays own cost (14) Equivalent amount 2500 EUR Currencies from EUR, base 1, to KES, rate 142,5 Reference date 2024-04-01 Exchange contract 407082 Account debited
equivalent|Payment order KWT20240402, original (9), to be acknowledged (AB) Dated 2024-04-02 06:55
released|Account debited DE00400500600700800900, KISIMA WATER TRUST + FRIENDS Payment 1
released|Account paid DE00500600700800900100, MASONS' GUILD Details are given as text (11) Text for the payee WELL 3: PAID ALREADY? Lines counted
custom_una|Account paid DE00700800900100200300, PIPE * PUMP COOP Details are given as text (11) Text for the payee VILLAGE'S SHARE: 2+1 TAPS; REST ~ LATER! Payment 2
spaces|Payment reference INVOICE 2207 Account paid DE00200300400500600700, DEEP BORE DRILLING, KASSEL Details are given as documents (8)
markup|Payee (account owner) </dd><script>alert(1)</script>, MILL LANE 4, KASSEL, 34117, DE
markup|Account debited DE00100200300400500600, <B>WELLS</B> & "FUND", K
joined|2 segments outside of messages. At byte offset 328 of the file: UNZ+1+KWT56' At byte offset 340 of the file: UNB+UNOC:3+CLEANWELLS+ORDERBANK+240306:0705+KWT57' Number 5.
open_4|'PRC+11'FTX+PMD+++WELL KEEPING MARCH'CNT+2:2'UNT+41+1'UNZ+1+CWF What to do:
END
if [ -z "$missed" ]; then good "page: values, $how"; else bad "page: values, $how$missed"; fi
# Of a tag of 600 letters 400 are shown and marked, of a segment with a bad byte far inside the 400 around it.
many() { head -c "$1" /dev/zero | tr '\0' "$2"; }
sed "s/LXN+2/$(many 600 X)+2/" samples/damaged_lin.edi >"$log/tag.edi"
$program page "$log/tag.edi" >"$log/page.html"
[ "$($reader outline "$log/page.html" | grep '^  \(mark\|here\) ')" = "$(printf '  mark %s\n  here %s...' "$(many 400 X)" "$(many 400 X)")" ] && $reader check "$log/page.html" && good "page: a long tag, $how" || bad "page: a long tag, $how"
sed "s/PUMP SERVICE FEBRUARY/$(many 1000 A)\x07$(many 1000 B)/" samples/good.edi >"$log/byte.edi"
$program page "$log/byte.edi" >"$log/page.html"
[ "$($reader outline "$log/page.html" | grep '^  \(mark\|here\) ')" = "$(printf '  mark %s\n  here ...%s%s%s...' '\x07' "$(many 133 A)" '\x07' "$(many 266 B)")" ] && $reader check "$log/page.html" && good "page: a byte in a long text, $how" || bad "page: a byte in a long text, $how"
# What belongs to a segment of a group stands further in.
$program page samples/good.edi >"$log/page.html"
depths=$(grep -oE '^<div class="in[0-9]"><dt>(Account paid|Details are given as|Document|Amount remitted|Indicator)</dt>' "$log/page.html" | head -n 5 | tr -dc '0-9')
[ "$depths" = 00121 ] && good "page: depths, $how" || bad "page: depths, $how: $depths"
# The reader refuses a page with any one of these changes.
missed='' changes=0
for name in good damaged_lin open_4; do $program page "samples/$name.edi" >"$log/$name.html"; done
while read -r name change; do
    LC_ALL=C sed "$change" "$log/$name.html" >"$log/changed.html"
    changes=$((changes + 1))
    $reader check "$log/changed.html" >"$log/out"
    [ $? = 1 ] && ! cmp -s "$log/$name.html" "$log/changed.html" || missed="$missed; $name $change"
    [ -z "${wordy:-}" ] || echo "$name $change: $(cat "$log/out")"
done <<'END'
good s|<!DOCTYPE html>|<!doctype html>|
good s|</html>|</html>x|
good s|<html lang="en">|<html>|
good s|<meta charset="utf-8">||
good s|width=device-width|width=980|
good s|</title>|<em></em></title>|
good s|<style>|<style>@import "x";|
good s|<style>|<style>p { background: u\\72 l(x); }|
good s|<style>|<style></style><style>|
good s|</h1>||
good s|</h1>|</h2>|
good s|<h1>|<H1>|
good s|<h1>|<h1 onclick="x">|
good s|<h1>|<h1 style="color: red">|
good s|<h1>|<h1 class=file>|
good s|<h1>|<h1 class="a" class="b">|
good s|<h1>|<h1 class="<">|
good s|<h1>|<h1><script></script>|
good s|<h1>|<h1><img>|
good s|<h1>|<h1><p></p>|
good s|<h1>|<h1><li></li>|
good s|<h1>|<h1><!-- -->|
good s|<h1>|<h1 id="a"><span id="a"></span>|
good s|<h1>|<h1><a href="#nowhere">x</a>|
good s|<h1>|<h1><a href="//x">x</a>|
good s|</h1>|\&copy;</h1>|
good s|</h1>|\& </h1>|
good s|</h1>|\&#0;</h1>|
good s|</h1>|\&#150;</h1>|
good s|</h1>|\&#55296;</h1>|
good s|</h1>|\&#1114112;</h1>|
good s|</h1>|a > b</h1>|
good s|</h1>|\xc3\xa9</h1>|
good s|</h1>|\x09</h1>|
good s|</h1>|\x00</h1>|
good s|</h1>|</h1><dd></dd>|
good s|</h1>|</h1><table><tr></tr></table>|
good s|</h1>|</h1><header></header>|
good s|</h1>|</h1><ul>x</ul>|
good s|<dt>|<dt><div></div>|
good s|<dl class="envelope">|<dl class="envelope"><dt></dt>|
good s|<main>|<main><main></main>|
good s|verdict accepted|verdict refused|
good s|verdict accepted|verdict|
good s|message accepted|message good|
good s|data-kind="order"|data-kind="advice"|
good s|data-place="1"|data-place="2"|
good s|data-messages="1"|data-messages="2"|
good s|data-strays="0"|data-strays="1"|
good s|closing accepted|closing refused|
good s|1750\.500 EUR|1750.501 EUR|
good s|500\.25 EUR|500.25 USD|
good s|class="total"|class="sum"|
damaged_lin s|data-segment="13"|data-segment="12"|
damaged_lin s|data-number="16"|data-number="17"|
damaged_lin s|data-number="16"|data-number="32"|
damaged_lin s|data-offset="261"|data-offset=""|
damaged_lin s|class="here"|class="there"|
damaged_lin s|<mark>|<mark></mark><mark>|
damaged_lin s|<mark>[^<]*</mark>|<mark></mark>|
damaged_lin s|class="instead"|class="else"|
damaged_lin s|<p class="do">|<p class="done">|
damaged_lin s|value="12"|value="11"|
open_4 s|</main>|</main><footer class="closing accepted" data-messages="0" data-strays="0" data-number="0"></footer>|
open_4 s|data-number="4"|data-number="5"|
open_4 s|opening refused|opening accepted|
END
if [ -z "$missed" ]; then good "page reader refuses $changes changed pages, $how"; else bad "page reader takes a changed page, $how$missed"; fi
# From standard input the same is said; no file, or none that can be read, is trouble.
$program page - <samples/damaged_lin.edi >"$log/page.html" 2>"$log/err"
got=$?
if [ "$got" = 1 ] && [ ! -s "$log/err" ] && diff <($reader outline "$log/page.html") <($reader outline "$log/damaged_lin.html"); then
    good "page: standard input, $how"
else
    bad "page: standard input, $how (status $got)"
fi
$program page >"$log/out" 2>/dev/null; [ $? = 2 ] && [ ! -s "$log/out" ] && good "page: usage, $how" || bad "page: usage, $how"
$program page samples/none >"$log/out" 2>/dev/null; [ $? = 2 ] && [ ! -s "$log/out" ] && good "page: no such file, $how" || bad "page: no such file, $how"
# A page that cannot be written is trouble as well.
$program page samples/good.edi >/dev/full 2>/dev/null; [ $? = 2 ] && good "page: no room for it, $how" || bad "page: no room for it, $how"
# The name of a file may be anything.
odd="$log/<b>&amp;\"'"$'\n\t\xff\xc3\xa9\xed\xa0\x80.edi'
cp samples/damaged_lin.edi "$odd"
$program page "$odd" >"$log/page.html"
if $reader check "$log/page.html" && diff <($reader outline "$log/page.html") <($reader outline "$log/damaged_lin.html"); then
    good "page: an odd name, $how"
else
    bad "page: an odd name, $how"
fi
# Letters of a name are those letters, and bytes that are none are told as bytes.
cp samples/damaged_lin.edi "$log/"$'M\xc3\xa4rz\xc3(\xe9.edi'
$program page "$log/"$'M\xc3\xa4rz\xc3(\xe9.edi' >"$log/page.html"
$reader text "$log/page.html" >"$log/text"
if head -n 1 "$log/text" | grep -qF $'M\xc3\xa4rz\\xC3(\\xE9.edi'; then good "page: letters of a name, $how"; else bad "page: letters of a name, $how"; fi
# Any bytes.
if [ "${pages:-0}" -gt 0 ]; then
    if timeout 900 $reader any "$pages" "${seed:-1}" ${second:+--second "$second"} $program >"$log/any" 2>&1; then
        good "page: $(tail -n 1 "$log/any"), $how"
    else
        tail -n 20 "$log/any" | cut -c1-400
        bad "page: any bytes, $how"
    fi
fi
