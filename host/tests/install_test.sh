#!/bin/sh
# install_test.sh STATIC LISTING BUILD: installs into an empty folder, and makes a release and unpacks it elsewhere. From
# each the example is built with what pkg-config says, once with each library, and everything installed is run, without
# the prover on the path.
cd "$(dirname "$0")/../.." || exit 1
. host/tests/check.sh
static=$1
listing=$2
build=$3
installed=$work/installed
sheet=$PWD/host/samples/sample.eas
expected=$PWD/host/tests/expected
major=$(sed -n 's/^#define EAS_VERSION_MAJOR //p' include/airstate.h)
PATH=/usr/bin:/bin
unset MAKEFLAGS MFLAGS

made() {
    make -s "$@" STATIC="$static" LISTING="$listing" BUILD="$build"
}

prints_stored() {
    LD_LIBRARY_PATH=$1/lib "$work/example" "$sheet" nose%2fcap%201 42 hot 43 a%2 | cmp - "$expected/example.txt"
}

# with_shared TREE, with_static TREE: builds the installed example, without any file of the source, and runs it.
with_shared() {
    flags=$(PKG_CONFIG_PATH=$1/lib/pkgconfig pkg-config --cflags --libs airstate) &&
        cc -std=c11 -Wall -Wextra -Wconversion -Werror "$1/share/doc/airstate/examples/example.c" $flags -o "$work/example" &&
        prints_stored "$1" && readelf -d "$work/example" | grep "NEEDED.*libairstate.so.$major"
}

with_static() {
    cc -std=c11 "$1/share/doc/airstate/examples/example.c" -I"$1/include" "$1/lib/libairstate.a" $LIBS -o "$work/example" &&
        prints_stored "$1"
}

as_cplusplus() {
    g++ -Wall -Wextra -Wpedantic -Werror -fsyntax-only -x c++ "$1/include/airstate.h"
}

# Only the header's entries are visible, and all of them.
exports_entries() {
    nm -D --defined-only "$1/lib/libairstate.so" | awk '{ print $3 }' | sort > "$work/exported"
    sed -n 's/^[a-z0-9_]* \(eas_[a-z_]*\)(.*/\1/p' "$1/include/airstate.h" | sort > "$work/declared"
    test -s "$work/declared" && diff "$work/exported" "$work/declared"
}

# The version of the header, the library and the pkg-config file.
one_version() {
    version=$(sed -n 's/^#define EAS_VERSION "\(.*\)"/\1/p' "$1/include/airstate.h")
    numbers=$(sed -n 's/^#define EAS_VERSION_[MP][A-Z]* \([0-9]*\)$/\1/p' "$1/include/airstate.h" | tr '\n' .)
    test "$version." = "$numbers" && test -f "$1/lib/libairstate.so.$version" &&
        test "$(PKG_CONFIG_PATH=$1/lib/pkgconfig pkg-config --modversion airstate)" = "$version"
}

lists() {
    mkdir -p "$work/folder" && cp "$sheet" "$work/folder/sheet.eas" &&
        (cd "$work/folder" && "$1/bin/airstate-listing" < "$expected/list.txt") | cmp - "$expected/list-output.txt"
}

# help_of TREE TOOL: --help and --version are written to standard output with status 0.
help_of() {
    "$1/bin/airstate-$2" --help | grep "^usage: airstate-$2 " &&
        "$1/bin/airstate-$2" --version | grep "^airstate-$2 (airstate) [0-9.]*$"
}

packs_and_draws() {
    "$1/bin/airstate-sheet" pack -o "$work/x.eas" "$1/share/airstate/samples/shock-tunnel.csv" &&
        cmp "$work/x.eas" "$1/share/airstate/samples/shock-tunnel.eas" && "$1/bin/airstate-plot" "$work/x.eas" "$work/x.svg"
}

has_page() {
    man -M "$1/share/man" "$2" "$3" | grep -q "$3"
}

try_tree() {
    tree=$2
    expect "$1: the example with the shared library" with_shared "$tree"
    expect "$1: the example with the static library" with_static "$tree"
    expect "$1: the header as C++" as_cplusplus "$tree"
    expect "$1: the library's entries" exports_entries "$tree"
    expect "$1: one version" one_version "$tree"
    expect "$1: the listing program" lists "$tree"
    expect "$1: a sheet and its drawing" packs_and_draws "$tree"
    expect "$1: the checklist with the installed samples" "$tree/bin/airstate-checklist"
    for tool in sheet plot checklist; do
        expect "$1: airstate-$tool tells its use" help_of "$tree" $tool
    done
    for page in sheet plot checklist listing; do
        expect "$1: airstate-$page(1)" has_page "$tree" 1 airstate-$page
    done
    expect "$1: airstate(3)" has_page "$tree" 3 airstate
    expect "$1: documents" test -s "$tree/share/doc/airstate/README.md" -a -s "$tree/share/doc/airstate/docs/FORMAT.md"
    expect "$1: links of the documents" python3 tests/documents.py "$tree/share/doc/airstate"
}

# Every command of the documents, from what is unpacked.
commands_run() {
    documents=$1/share/doc/airstate manuals=$1/share/man/man1
    python3 host/tests/commands.py "$1" "$documents/README.md" "$documents/docs/FORMAT.md" "$documents/docs/DECISIONS.md" \
        "$documents/host/README.md" "$manuals"/*.1 | tee "$work/commands" &&
        grep -q '^commands: [1-9][0-9]* checks, 0 failures$' "$work/commands"
}

left_over() {
    find "$installed" -type f -o -type l
    test -z "$(find "$installed" -type f -o -type l)"
}

unpacks() {
    made dist > "$work/dist" && mkdir "$work/elsewhere" && tar -C "$work/elsewhere" -xzf "$(tail -n 1 "$work/dist")"
}

expect "install" made install PREFIX="$installed"
try_tree installed "$installed"
expect "uninstall" made uninstall PREFIX="$installed"
expect "nothing is left over" left_over
expect "a release is made and unpacked" unpacks
try_tree release "$(echo "$work"/elsewhere/airstate-*)"
expect "the commands of the documents" commands_run "$(echo "$work"/elsewhere/airstate-*)"
tail -n 1 "$work/commands"
no_prover() {
    make -s run 2> "$work/message"
    test $? -ne 0 && head -n 1 "$work/message" | grep '^rt, .* is not on the path'
}
expect "without rt, make run says so at once" no_prover
finish install
