# Sourced by the gate: Chromium shows the pages of some samples. It mends nothing in them, nothing is wider than the window of a phone or
# a desk, no text is too small, the mark can be seen, and they can be printed. Skipped where there is no Chromium that starts and none can be had.
browser_samples="good order_and_advice damaged_lin refused_10 open_4 released markup"
[ -n "${reader:-}" ] || { rustc -O --edition 2021 tests/page.rs -o target/page && reader=target/page; }
browser() { timeout 60 chromium --headless --no-sandbox --disable-gpu --hide-scrollbars --user-data-dir="$log/chromium" "$@" 2>/dev/null; }
browser_wrapper() { # NAME.. -> a page with each page in a frame of either width, and what it measures there as its only text
    echo '<!DOCTYPE html><html><head><meta charset="utf-8"><title>frames</title></head><body>'
    for name; do
        for width in 390 1280; do
            echo "<iframe data-name=\"$name\" style=\"border: 0; width: ${width}px; height: 800px\" srcdoc=\""
            sed 's/&/\&amp;/g; s/"/\&quot;/g' "$log/$name.html"
            echo '"></iframe>'
        done
    done
    cat <<'END'
<script>
const scrolls = element => element.tagName != 'BODY' &&
    (['auto', 'scroll'].includes(getComputedStyle(element).overflowX) || scrolls(element.parentElement));
function measure(frame) {
    const shown = frame.contentDocument, width = frame.clientWidth, all = [...shown.querySelectorAll('*')], wrong = [];
    const root = shown.documentElement, outside = box => box.right > width + 0.5 || box.left < -0.5;
    if (root.scrollWidth > width || root.clientWidth != width) wrong.push(`${root.scrollWidth} px wide, and the window ${root.clientWidth}`);
    for (const element of shown.body.querySelectorAll('*'))
        if (outside(element.getBoundingClientRect()) && !scrolls(element.parentElement)) wrong.push(`${element.tagName} ${element.className} is outside`);
    const texts = shown.createTreeWalker(shown.body, NodeFilter.SHOW_TEXT);
    while (texts.nextNode()) {
        const text = texts.currentNode;
        if (text.data.trim() && parseFloat(getComputedStyle(text.parentElement).fontSize) < 11) wrong.push(`small: ${text.data}`);
    }
    for (const mark of shown.querySelectorAll('mark')) {
        const box = mark.getBoundingClientRect(), visible = mark.checkVisibility({ checkVisibilityCSS: true, checkOpacity: true });
        if (!visible || box.width < 2 || box.height < 8 || outside(box)) wrong.push('the mark cannot be seen');
    }
    return [`${frame.dataset.name} ${width} ${all.length}`, ...wrong.map(what => `wrong: ${frame.dataset.name} ${width}: ${what}`)];
}
onload = () => { document.body.textContent = '\n' + [...document.querySelectorAll('iframe')].flatMap(measure).join('\n') + '\n'; };
</script></body></html>
END
}
browser_page() { # NAME: shown and printed
    browser --dump-dom --no-pdf-header-footer --print-to-pdf="$log/$1.pdf" "file://$log/$1.html" >"$log/$1.dom"
    for what in outline count text; do
        $reader $what "$log/$1.html" >"$log/page.$what" || { echo "page: $(cat "$log/page.$what")"; return 1; }
        $reader $what --dom "$log/$1.dom" >"$log/dom.$what" || { echo "shown: $(cat "$log/dom.$what")"; return 1; }
        diff "$log/page.$what" "$log/dom.$what" || return 1
    done
    [ "$(head -c 4 "$log/$1.pdf")" = %PDF ] && [ "$(grep -aoE '/Type ?/Page\b' "$log/$1.pdf" | wc -l)" -ge 1 ] || { echo "no printed page"; return 1; }
    command -v pdftotext >/dev/null || return 0
    pdftotext "$log/$1.pdf" "$log/printed" || return 1
    sed -n 's/^  order //p' "$log/page.outline" | while read -r total; do
        tr -s ' \n' ' ' <"$log/printed" | grep -qF "$total" || { echo "not printed: $total"; exit 1; }
    done
}
browser_starts() { # a page of one word is shown
    echo '<!DOCTYPE html><title>word</title><p id="word">word</p>' >"$log/word.html"
    browser --dump-dom "file://$log/word.html" | grep -q 'id="word"'
}
browser_install() { timeout 300 apt-get update && timeout 900 apt-get install -y --no-install-recommends chromium; }
if ! command -v chromium >/dev/null && ! browser_install >"$log/apt" 2>&1; then
    echo "skipped: no Chromium here, and none can be installed"
elif ! browser_starts; then
    echo "skipped: Chromium is here, and does not start"
else
    names=''
    for name in $browser_samples; do
        [ -f "samples/$name.edi" ] || continue
        names="$names $name"
        rm -f "$log/$name.pdf"
        $program page "samples/$name.edi" >"$log/$name.html"
        if browser_page "$name"; then good "browser: $name is shown and printed, $how"; else bad "browser: $name is shown and printed, $how"; fi
    done
    # every frame was measured with all of its elements, and nothing is wrong
    browser_wrapper $names >"$log/frames.html"
    browser --dump-dom "file://$log/frames.html" >"$log/frames"
    for name in $names; do
        count=$($reader count "$log/$name.html" | awk '{ sum += $2 } END { print sum }')
        if grep -qx "$name 390 $count" "$log/frames" && grep -qx "$name 1280 $count" "$log/frames" && ! grep "^wrong: $name " "$log/frames"; then
            good "browser: $name fits a phone and a desk, $how"
        else
            bad "browser: $name fits a phone and a desk, $how"
        fi
    done
fi
