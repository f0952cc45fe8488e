# Sourced by the gate: tools/install, into an empty folder and where it must refuse, and what a C programmer does with what it installed.
# What is expected of the examples comes from samples/*.txt, of their totals and kinds from the samples themselves.
top=$PWD
prefix=$log/prefix
holds() { if "${@:2}"; then good "install: $1"; else bad "install: $1"; fi; }

# ---- What is refused, before anything is built. This rt does nothing but note that it was called, and fails or not.
mkdir -p "$log/stand_in" "$log/elsewhere"
cat >"$log/stand_in/rt" <<END
#!/bin/sh
[ "\$1" != doc ] || exec $(command -v rt) doc
echo "\$*" >>"$log/called"
exit \$RT_STATUS
END
chmod 755 "$log/stand_in/rt"
without_proof() { RT_STATUS=$1 PATH="$log/stand_in:$PATH" bash tools/install "${@:2}" >"$log/out" 2>"$log/err"; }
refuses() { # ARGUMENT..
    rm -f "$log/called"
    without_proof 0 "$@"
    [ $? = 2 ] && [ ! -s "$log/out" ] && [ "$(wc -l <"$log/err")" = 1 ] && [ ! -e "$log/called" ] && [ ! -e "${1:-$log/none}" ]
}
echo >"$log/file"
holds "no prefix is refused" refuses
holds "two prefixes are refused" refuses "$log/one" "$log/two"
holds "an empty prefix is refused" refuses ""
holds "an option is refused" refuses --help
for name in 'a b' 'a:b' 'a$b' 'a"b' "a'b" 'a\b' 'a#b' 'a%b' 'a(b' $'a\nb' $'a\n' $'a\xc3\xa9'; do
    holds "the prefix $(printf %q "$name") is refused" refuses "$log/$name"
done
holds "a prefix below a file is refused" refuses "$log/file/x"
mkdir -p "$log/half/share/man/man3/twineherald.3"
half() { without_proof 0 "$log/half"; [ $? = 2 ] && [ ! -e "$log/called" ] && [ -z "$(find "$log/half" -type f)" ]; }
holds "a folder in the place of a file is refused" half
unproved() { without_proof 1 "$log/unproved"; [ $? = 2 ] && [ -e "$log/called" ] && [ ! -e "$log/unproved" ]; }
holds "without a proof nothing is installed" unproved

# ---- Installing.
if ! bash tools/install "$prefix" >"$log/installed" 2>"$log/err"; then
    tail -n 20 "$log/err"
    bad "install: into an empty folder"
    return 0
fi
good "install: into an empty folder"
cat "$log/installed"
cat >"$log/want" <<'END'
d 755 bin
f 755 bin/payreport
f 755 bin/twineherald
d 755 include
f 644 include/twineherald.h
d 755 lib
f 644 lib/libtwineherald.a
d 755 lib/pkgconfig
f 644 lib/pkgconfig/twineherald.pc
d 755 share
d 755 share/doc
d 755 share/doc/twineherald
f 644 share/doc/twineherald/REFUSALS.md
f 644 share/doc/twineherald/host.c
d 755 share/man
d 755 share/man/man1
f 644 share/man/man1/payreport.1
f 644 share/man/man1/twineherald.1
d 755 share/man/man3
f 644 share/man/man3/twineherald.3
END
there() { (cd "$1" && find . -mindepth 1 -printf '%y %m %P\n' | LC_ALL=C sort -k 3) | diff "$log/want" -; }
holds "every file with its mode, and nothing else" there "$prefix"
same() { cmp include/twineherald.h "$prefix/include/twineherald.h" && cmp target/staticlib/libtwineherald.a "$prefix/lib/libtwineherald.a" && cmp examples/host.c "$prefix/share/doc/twineherald/host.c" && cmp docs/REFUSALS.md "$prefix/share/doc/twineherald/REFUSALS.md"; }
holds "the header, the library and the documents are those of here" same
# Again over what is there, with a relative prefix, and below DESTDIR: what is proved already is not proved again for this.
again() { without_proof 0 "$prefix" && there "$prefix"; }
holds "again into the same folder" again
relative() { # the prefix is told from the folder in which the command is given
    (cd "$log/elsewhere" && umask 077 && RT_STATUS=0 PATH="$log/stand_in:$PATH" DESTDIR=dest bash "$top/tools/install" "$1" >/dev/null 2>&1) &&
        there "$log/elsewhere/dest$log/elsewhere/a,b" && grep -qx "prefix=$log/elsewhere/a,b" "$log/elsewhere/dest$log/elsewhere/a,b/lib/pkgconfig/twineherald.pc"
}
holds "a relative prefix below DESTDIR, whatever the umask" relative ./x/../a,b/

# ---- The pages and the version.
version=$(cat VERSION)
titled() { head -n 1 "$1" | grep -qF "\"Twineherald $version\"" && ! grep -nE '@[A-Z]+@' "$1"; }
lint() { mandoc -T lint -W warning "$1" >"$log/out" 2>&1 && [ ! -s "$log/out" ] || { cat "$log/out"; return 1; }; }
for page in man1/twineherald.1 man1/payreport.1 man3/twineherald.3; do
    holds "$page has the version and no gap" titled "$prefix/share/man/$page"
    if command -v mandoc >/dev/null 2>&1; then holds "$page is well formed" lint "$prefix/share/man/$page"; else echo "-- no mandoc here: $page is not looked through"; fi
done
numbered() {
    local number count=0
    for number in $(sed -n 's/^    TWINEHERALD_[A-Z_]* = \([0-9]*\),\{0,1\} .*/\1/p' include/twineherald.h); do
        [ "$number" = 0 ] || grep -qE "^\.B \"?$number([^0-9]|\$)" <(sed '1,/^\.SH REFUSALS/d' "$prefix/share/man/man3/twineherald.3") || { echo "number $number is not in twineherald.3"; return 1; }
        count=$((count + 1))
    done
    [ "$count" -gt 20 ]
}
holds "every number of the header is in twineherald.3" numbered
declared() {
    local call
    for call in $(grep -oE 'twineherald_[a-z_]+\(' include/twineherald.h); do grep -qF "$call" "$prefix/share/man/man3/twineherald.3" || return; done
}
holds "every call of the header is in twineherald.3" declared
tells_version() { $RUN "$prefix/bin/twineherald" --version | grep -qwF "$version"; }
holds "twineherald --version" tells_version
runs_so() { [ -z "$RUN" ] || $(tail -n 1 "$log/installed") --version | grep -qwF "$version"; }
holds "what it says at the end runs" runs_so
reports() { $RUN "$prefix/bin/payreport" <samples/damaged_lin.edi | cmp - samples/damaged_lin.txt; }
holds "payreport" reports
# shown PAGE COMMAND: what the page shows under that command is what it prints.
shown() {
    local page=$prefix/share/man/man1/$1.1 line=$2
    sed -n "/^\\$ ${line//\//\\/}\$/,/^\.EE\$/p" "$page" | sed '1d; $d' >"$log/shown"
    [ -s "$log/shown" ] && (eval "$RUN $prefix/bin/$line") | diff "$log/shown" -
}
holds "twineherald.1 shows what is printed" shown twineherald "twineherald check samples/good.edi"
holds "payreport.1 shows what is printed" shown payreport "payreport <samples/damaged_lin.edi"

# ---- The two examples, built in another folder by what pkg-config says and nothing else.
need pkg-config pkg-config && need_cxx || { bad "install: pkg-config and $CXX"; return 0; }
package() { PKG_CONFIG_LIBDIR=$prefix/lib/pkgconfig pkg-config "$@" twineherald; }
packaged() { [ "$(package --modversion)" = "$version" ] && [ "$(package --variable=prefix)" = "$prefix" ]; }
holds "pkg-config tells the version" packaged
# The example of the manual is C that compiles.
manual() {
    { echo '#include <twineherald.h>'; sed -n '/^static uint16_t rows/,/^\.EE$/p' "$prefix/share/man/man3/twineherald.3" | sed '$d'; } >"$log/elsewhere/manual.c"
    grep -q twineherald_walk "$log/elsewhere/manual.c" && $CC -std=c11 -Wall -Wextra -Werror -c $(package --cflags) "$log/elsewhere/manual.c" -o "$log/elsewhere/manual.o"
}
holds "the example in twineherald.3 compiles" manual
# The lines of host by the report of payreport. Kinds and totals stand in no report: the host's lines are compared without them.
wanted() {
    awk '$3 == "OK" { print "message " $2 ": accepted, " $4 " segments, " $5 " LIN, " $6 " SEQ" }
        $3 == "NO" { print "message " $2 ": refused, number " $4 ", segment " $5 ", offset " $6 }
        $1 == "END" { print "closing: " $2 " messages, " $4 " strays, number " $5 }
        $1 == "OPEN" { print "file: refused, number " $3 }' "$1"
}
told() { # PROGRAM: every sample, but for the three that lists and room of another length judge otherwise
    local edi got want differs=0
    for edi in samples/*.edi; do
        case $edi in */refused_14.edi | */refused_14_b.edi | */open_1.edi) continue ;; esac
        $RUN "$1" "$edi" >"$log/out" 2>"$log/err"
        got=$?
        wanted "${edi%.edi}.txt" >"$log/lines"
        want=0
        ! grep -qE 'refused|number [1-9]' "$log/lines" || want=1
        if [ "$got" != "$want" ] || [ -s "$log/err" ] || ! sed 's/accepted [a-z]*,/accepted,/; s/, totals .*//' "$log/out" | diff "$log/lines" -; then echo "$edi: status $got, not as expected"; differs=1; fi
    done
    return $differs
}
totals() { # PROGRAM: kinds and totals, by the UNH of each message and the amount behind each LIN
    local edi
    for edi in samples/good.edi samples/half.edi samples/order_and_advice.edi samples/wrong_count.edi; do
        $RUN "$1" "$edi" | sed -n 's/^message \([0-9]*\): accepted \([a-z]*\),.* SEQ\(, totals\)\{0,1\}/\1 \2/p' |
            diff <(awk -v RS="'" -F '[+:]' '
                $1 == "UNH" { line = $2 " " ($3 == "PAYMUL" ? "order" : "advice"); order = $3 == "PAYMUL" }
                $1 == "LIN" { first = order }
                $1 == "MOA" && first { sub(",", ".", $3); line = line sprintf(" %.3f", $3); first = 0 }
                $1 == "UNT" { print line }' "$edi") - || return
    done
}
# By hand: before the MOA of the second message's order stand UNH, BGM, DTM, LIN, DTM and RFF with 22, 16, 21, 6, 21 and 14 bytes.
cat >"$log/each" <<'END'
message 1: accepted, 14 segments, 1 LIN, 1 SEQ
message 2: refused, number 26, segment 7, offset 100
message 3: accepted, 14 segments, 1 LIN, 1 SEQ
not to be sent
END
answered() { $RUN "$1" >"$log/out" 2>"$log/err"; [ $? = 1 ] && diff "$log/each" "$log/out" && [ ! -s "$log/err" ]; }
gives_up() { # WORDS COMMAND..: status 2, and one line with these words on standard error
    "${@:2}" >/dev/null 2>"$log/err"
    [ $? = 2 ] && [ "$(wc -l <"$log/err")" = 1 ] && grep -qF "$1" "$log/err"
}
full() { "$@" >/dev/full; }
head -c 1048577 /dev/zero | tr '\0' X >"$log/too_long"
head -c 1048576 /dev/zero | tr '\0' X >"$log/long"
opens_not() { $RUN "$1" "$2" >"$log/out"; [ $? = 1 ] && [ "$(cat "$log/out")" = "file: refused, number $3" ]; }
made() { (cd "$log/elsewhere" && $compile -Wall -Wextra -Werror "$top/examples/$1.c" $(package --cflags --libs) -o "$1-$language"); }
for language in c11 c++17; do
    case $language in
    c11) compile="$CC -std=c11" ;;
    *) compile="$CXX -std=c++17 -x c++" ;;
    esac
    holds "host.c compiles as $language" made host
    holds "each.c compiles as $language" made each
    it=$log/elsewhere/host-$language
    holds "host tells the samples, $language" told "$it"
    holds "host tells kinds and totals, $language" totals "$it"
    holds "host: one byte too many, $language" opens_not "$it" "$log/too_long" 1
    holds "host: as many bytes as may be, $language" opens_not "$it" "$log/long" 3
    holds "host: no file named, $language" gives_up usage $RUN "$it"
    holds "host: two files named, $language" gives_up usage $RUN "$it" samples/good.edi samples/good.edi
    holds "host: no such file, $language" gives_up "cannot read" $RUN "$it" "$log/none"
    holds "host: a folder, $language" gives_up "cannot read" $RUN "$it" "$log"
    holds "host: the answer cannot be written, $language" gives_up "cannot write" full $RUN "$it" samples/good.edi
    holds "each tells its messages, $language" answered "$log/elsewhere/each-$language"
    holds "each: the answer cannot be written, $language" gives_up "cannot write" full $RUN "$log/elsewhere/each-$language"
done
