#!/bin/sh
# tools_test.sh BUILD [LISTING...]: the example, the stack, the benchmark and the listing program on the sample sheets,
# against what is stored. LISTING is the command of the listing program.
cd "$(dirname "$0")/.." || exit 1
. tests/check.sh
build=$1
shift

# prints_example STORED SHEET NAME...
prints_example() {
    stored=tests/expected/$1
    sheet=samples/$2
    shift 2
    "$build/example" "$sheet" "$@" > "$work/example.txt"
    cat "$work/example.txt"
    cmp "$work/example.txt" "$stored"
}

# The listing program reads sheet.eas in the current folder.
in_folder() {
    rm -rf "$work/folder"
    mkdir "$work/folder"
    test "$1" = none || cp "samples/$1" "$work/folder/sheet.eas"
    shift
    (cd "$work/folder" && "$@")
}

# lists SHEET NAMES OUTPUT COMMAND...
lists() {
    sheet=$1
    output=tests/expected/$3
    names=tests/expected/$2
    shift 3
    in_folder "$sheet" "$@" < "$names" > "$work/listed"
    cat "$work/listed"
    cmp "$work/listed" "$output"
}

# Every name of the list gets its line.
lists_each_name() {
    in_folder sample.eas "$@" < "$work/longest-list" > "$work/listed"
    tail -3 "$work/listed"
    cut -d ' ' -f 1 "$work/listed" > "$work/names"
    tr '\n' ' ' < "$work/longest-list" | tr -d ' ' > "$work/joined" && tr -d '\n' < "$work/names" | cmp - "$work/joined"
}

# With a full disk for standard output, standard error tells it.
tells_lost_output() {
    in_folder sample.eas "$@" < "$work/longest-list" > /dev/full 2> "$work/lost-message"
    grep -q '^listing: the output could not be written' "$work/lost-message"
}

refuses_list() {
    in_folder sample.eas "$@" < "$work/too-long-list" > "$work/listed"
    cat "$work/listed"
    test "$(cat "$work/listed")" = "list ! 15"
}

# A sheet, the same one without its remarks, and that one in its other version have one listing.
lists_remarks_aside() {
    "$build/sheet_tool" unpack --spelled samples/with-remarks.eas > "$work/states.csv" &&
        cut -d , -f 1-4 "$work/states.csv" | "$build/sheet_tool" pack > "$work/bare.eas" || return 1
    tail -n +2 "$work/states.csv" | cut -d , -f 1 > "$work/names"
    in_folder with-remarks.eas "$@" < "$work/names" > "$work/listed"
    cp "$work/bare.eas" "$work/folder/sheet.eas"
    (cd "$work/folder" && "$@") < "$work/names" > "$work/listed-bare"
    "$build/sheet_tool" forward -o "$work/folder/sheet.eas" "$work/bare.eas" || return 1
    (cd "$work/folder" && "$@") < "$work/names" > "$work/listed-forward"
    cat "$work/listed"
    test "$(grep -c ' [TSP] ' "$work/listed")" -eq 15 && cmp "$work/listed" "$work/listed-bare" &&
        cmp "$work/listed" "$work/listed-forward"
}

# walks_as_listed COMMAND...: a walk over each sample has the listing of its names.
walks_as_listed() {
    for sample in samples/*.eas; do
        "$build/sheet_tool" unpack --spelled "$sample" | tail -n +2 | cut -d , -f 1 > "$work/names"
        in_folder "${sample#samples/}" "$@" < "$work/names" > "$work/listed"
        test -s "$work/listed" && "$build/sheet_tool" list "$sample" | cmp - "$work/listed" || return 1
    done
}

expect "the example prints what is stored" prints_example example.txt sample.eas nose%2fcap%201 42 hot 43 a%2
expect "the example prints joined temperatures" prints_example example-joined.txt slash-and-space.eas \
    strip%2fT%20low%201 strip%2Fcold%20low refused%2FG%20at%20dense%20end
expect "the example prints pressures" prints_example example-pressure.txt energy-and-pressure.eas \
    low%2fminus%204 upper-edge%2Fon%204 upper-edge%2fbeyond thinnest
expect "the example prints remarks" prints_example example-remark.txt with-remarks.eas shot%201412%2freservoir \
    1415%2fnose shot%201413%2Fnose 1416
expect "the example walks over a sheet" prints_example example-walk.txt sample.eas
expect "no entry uses 128 KB of stack" "$build/stack"
expect "the benchmark runs" "$build/bench" 1000
if test $# -gt 0; then
    listing=$(realpath "$1")
    shift
    set -- "$listing" "$@"
    expect "the listing prints what is stored" lists sample.eas list.txt list-output.txt "$@"
    expect "a sheet that cannot be opened counts as empty" lists none list.txt no-sheet-output.txt "$@"
    if test -x "$build/sheet_tool"; then
        expect "a listing does not depend on remarks, nor on the version" lists_remarks_aside "$@"
        expect "a walk has the listing of all names" walks_as_listed "$@"
    else
        skip "sheet_tool was not built"
    fi
    seq 20000 > "$work/long-list"
    head -c 65536 "$work/long-list" > "$work/longest-list"
    head -c 65537 "$work/long-list" > "$work/too-long-list"
    expect "a list of 65,536 bytes is listed" lists_each_name "$@"
    expect "a list over 65,536 bytes is refused" refuses_list "$@"
    expect "a listing that cannot be written says so" tells_lost_output "$@"
else
    skip "the listing program was not given"
fi
finish tools
