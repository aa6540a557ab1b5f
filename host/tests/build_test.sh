#!/bin/sh
# build_test.sh STATIC LISTING: the build on a machine that lacks packages. A compiler that does not find a header stands
# for such a machine; programs that say what they were asked stand for the package manager and the prover.
cd "$(dirname "$0")/../.." || exit 1
. host/tests/check.sh
static=$1
listing=$2
unset MAKEFLAGS MFLAGS MAKELEVEL STRICT V CFLAGS

# lacks HEADER...: the compiler at hand finds none of these, and pkg-config finds nothing where pango is one of them.
lacks() {
    rm -rf "$work/hidden" "$work/pkg-config"
    unset PKG_CONFIG_LIBDIR
    for header in "$@"; do
        mkdir -p "$work/hidden/$(dirname "$header")"
        echo "#error $header: No such file or directory" > "$work/hidden/$header"
        test "$header" != pango/pangocairo.h || export PKG_CONFIG_LIBDIR="$work/pkg-config"
    done
    printf '#!/bin/sh\nexec cc -I%s "$@"\n' "$work/hidden" > "$work/lacking-cc"
    chmod +x "$work/lacking-cc"
}

# makes WORD...: make with this compiler, in a build folder of its own.
makes() {
    make CC="$work/lacking-cc" CFLAGS=-O0 STATIC="$static" LISTING="$listing" BUILD="$work/build" "$@"
}

# builds NOT-BUILT TOOLS: make ends with 0, tells these lines of what it does not build, and builds these tools alone.
builds() {
    for t in example sheet_tool plot checklist; do
        rm -f "$work/build/$t"
    done
    makes > "$work/made" || { cat "$work/made"; return 1; }
    grep '^not built:' "$work/made" > "$work/not-built"
    for t in example sheet_tool plot checklist; do
        test ! -x "$work/build/$t" || echo $t
    done > "$work/tools"
    cat "$work/not-built" "$work/tools"
    test "$(cat "$work/not-built")" = "$1" && test "$(echo $(cat "$work/tools"))" = "$2" && "$work/build/example" \
        host/samples/sample.eas > "$work/example.txt" && cmp "$work/example.txt" host/tests/expected/example-walk.txt
}

# ships_nothing WORDS...: make ends with a failure and says why, and nothing is left at the place.
ships_nothing() {
    makes "$@" > "$work/made" 2>&1 && return 1
    cat "$work/made"
    grep -q '^not shipped: a tool is missing; make packages installs what it needs$' "$work/made" &&
        test ! -e "$work/shipped" && test -z "$(find "$work/build" -name 'airstate-*.tar.gz')"
}

sheet_tool='not built: sheet_tool: needs libcsv-dev'
plot='not built: plot: needs libpango1.0-dev and pkg-config'
checklist='not built: checklist: needs libmpfr-dev and libgmp-dev'
lacks csv.h pango/pangocairo.h mpfr.h gmp.h
expect "without any library the example is built" builds "$sheet_tool
$plot
$checklist" example
expect "nothing is installed then" ships_nothing install PREFIX="$work/shipped"
expect "no release is made then" ships_nothing dist
expect "each program's package is named" sh -c "make -C host missing STRICT= CC='$work/lacking-cc' > '$work/missing' &&
    grep -q '^not built: checklist faults .* listing_test: needs libmpfr-dev and libgmp-dev\$' '$work/missing' &&
    grep -q '^not built: fuzz_csv: needs clang, libclang-rt-dev and libcsv-dev\$' '$work/missing'"
expect "where STRICT is set that is an error" sh -c "! make -C host missing CC='$work/lacking-cc' STRICT=1"
lacks csv.h
expect "without csv.h all but sheet_tool is built" builds "$sheet_tool" "example plot checklist"
expect "nothing is installed without sheet_tool" ships_nothing install PREFIX="$work/shipped"
expect "no release is made without sheet_tool" ships_nothing dist
lacks pango/pangocairo.h
expect "without pango all but plot is built" builds "$plot" "example sheet_tool checklist"
expect "nothing is installed without plot" ships_nothing install PREFIX="$work/shipped"
lacks mpfr.h
expect "without mpfr all but the checklist is built" builds "$checklist" "example sheet_tool plot"
expect "nothing is installed without the checklist" ships_nothing install PREFIX="$work/shipped"
lacks
expect "with all of them all is built" builds "" "example sheet_tool plot checklist"

# What is shown of a command.
shows() {
    rm -f "$work/build/object/tools/utf8.o" "$work/build"/libairstate.so.*
    makes "$@" > "$work/made" && cat "$work/made"
}
short_lines() {
    shows && grep -qx 'CC tools/utf8.o' "$work/made" && grep -qx 'LD sheet_tool' "$work/made" &&
        grep -q '^LD libairstate.so' "$work/made" && ! grep -qF lacking-cc "$work/made"
}
whole_lines() {
    shows V=1 && grep -q 'lacking-cc .*-c tools/utf8.c -o' "$work/made" &&
        grep -q 'lacking-cc .*-lcsv.*/sheet_tool$' "$work/made" &&
        grep -q 'lacking-cc -shared .*libairstate.so' "$work/made" && ! grep -q '^\(CC\|LD\) ' "$work/made"
}
expect "a command is shown in short" short_lines
expect "V=1 shows it whole" whole_lines

# make packages. stub NAME TEXT: a program of this name, found before the real one.
stub() {
    mkdir -p "$work/stubs"
    printf '#!/bin/sh\n%s\n' "$2" > "$work/stubs/$1"
    chmod +x "$work/stubs/$1"
}
stub dpkg 'case $2 in libcsv-dev | mandoc) exit 1 ;; esac'
stub id 'echo 0'
stub apt-get "echo \"\$@\" >> '$work/asked'; test ! -e '$work/fails' || { rm '$work/fails'; exit 100; }"
stub sudo "echo sudo >> '$work/asked'; exec \"\$@\""
# asks SAID ASKED: make packages says this, and the package manager is asked for that.
asks() {
    rm -f "$work/asked"
    PATH="$work/stubs:$PATH" make -s packages > "$work/told" 2>&1 || return 1
    cat "$work/told" "$work/asked"
    test "$(cat "$work/told")" = "$1" && test "$(cat "$work/asked" 2> /dev/null)" = "$2"
}
install="install -y -q --no-install-recommends libcsv-dev mandoc"
expect "packages: what is missing is installed" asks "installing libcsv-dev mandoc" "$install"
touch "$work/fails"
expect "packages: a second try, with a new list" asks "installing libcsv-dev mandoc" "$install
update -q
$install"
stub id 'echo 1000'
expect "packages: by sudo where it is not root" asks "installing libcsv-dev mandoc" "sudo
$install"
stub dpkg :
expect "packages: nothing is installed again" asks "" ""
sed -n "/^packages=/,/'$/p" host/packages.sh | tr -s "=' " '\n' > "$work/packages"
for package in $(sed -n -e 's/, / /' -e 's/ and / /' -e 's/.*: needs //p' "$work/missing"); do
    expect "packages: $package is one of them" grep -qxF "$package" "$work/packages"
done
expect "the gate installs the same" grep -qx 'step "packages" host/packages.sh' .ci/run

# The prover's lines: every crate's name is apart from what is said of it.
stub rt "sed -n 's/^\([a-z0-9_]*\)\( staticlib\)* *:.*/rt: chose --jobs 1 for \1\nlogic=proved functions=1/p' ../../crates.txt"
columns() {
    PATH="$work/stubs:$PATH" host/prove.sh airstate > "$work/proved"
    grep -c '^ *[0-9]* of [0-9]*  [a-z0-9_]*  *proved ([0-9]* s)$' "$work/proved" > "$work/count"
    grep 'proved (' "$work/proved" | sed 's/proved (.*//' | awk '{ print length }' | sort -u > "$work/widths"
    cat "$work/proved"
    test "$(cat "$work/count")" -eq "$(grep -c 'proved (' "$work/proved")" && test "$(wc -l < "$work/widths")" -eq 1
}
expect "the prover's columns do not run together" columns
finish build
