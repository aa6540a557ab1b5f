#!/bin/sh
# man_test.sh: the man pages have no fault, and say what the header and the tools say.
cd "$(dirname "$0")/../.." || exit 1
. host/tests/check.sh

clean() {
    test -z "$(MANROFFSEQ='' man --warnings -E UTF-8 -l "$1" 2>&1 > "$work/page")" && test -s "$work/page"
}

linted() {
    mandoc -Tlint -W warning "$1"
}

# rendered PAGE: its words in one line, hyphens at line ends taken back.
rendered() {
    MANWIDTH=1000 man -E ascii --nh --nj -l "$1" 2> /dev/null | tr '\n' ' ' | tr -s ' '
}

# The text stands in the page.
says() {
    rendered "$1" | grep -qF -e "$2"
}

for page in man/*.[13]; do
    expect "$page is formatted without a warning" clean "$page"
    if command -v mandoc > /dev/null; then
        expect "$page has no fault for mandoc" linted "$page"
    else
        skip "mandoc is not installed"
    fi
done
for entry in $(grep -o '\beas_[a-z_]*(' include/airstate.h | tr -d '(' | sort -u); do
    expect "airstate(3) has $entry" says man/airstate.3 "$entry"
done
sed -n 's/^ *return "\(.*\)";$/\1/p' include/airstate.h | grep -v -e '^not refused$' -e '^unknown refusal$' > "$work/reasons"
while read -r reason; do
    expect "airstate(3) has: $reason" says man/airstate.3 "$reason"
done < "$work/reasons"
for heading in name spelled kind first density remark remark_spelled $(sed -n 's/.*"\([a-z]*_[A-Za-z_0-9]*\)", [0-9]*};/\1/p' host/tools/kinds.c | grep -v -e temperature -e entropy); do
    expect "airstate-sheet(1) has the heading $heading" says man/airstate-sheet.1 "$heading"
done
for word in $(sed -n 's/^ *"\([a-z]*\) \[-o .*/\1/p' host/tools/sheet_tool.c); do
    expect "airstate-sheet(1) has $word" says man/airstate-sheet.1 "airstate-sheet $word"
done
for tool in sheet_tool plot checklist; do
    for option in $(sed -n "s/.*{'.', \"\([a-z0-9-]*\)\".*/\1/p" host/tools/$tool.c) help version; do
        expect "airstate-${tool%_tool}(1) has --$option" says "man/airstate-${tool%_tool}.1" "--$option"
    done
done
finish man
