#!/bin/sh
# table_test.sh BUILD: the table of a sheet in its three forms, and of a run list.
cd "$(dirname "$0")/.." || exit 1
. tests/check.sh
tool=$1/sheet_tool
test -x "$tool" || { skip "sheet_tool was not built"; finish table; }

# Every sample, a sheet without states, and one with names and remarks of every byte.
"$tool" pack -o "$work/none.eas" 2> "$work/said" << 'TEXT'
name,kind,first,density
TEXT
{
    echo spelled,kind,first,density,remark_spelled
    seq 0 255 | awk '{ printf "%%%02X,%d,%d,129200000000,a%%%02X%%22%%5C\n", $1, 1 + $1 % 3, 10000000 + $1 * 1000, $1 }'
} | "$tool" pack -o "$work/bytes.eas" 2> "$work/said"
rows_of() {
    python3 tests/table.py "$tool" "$@" > "$work/count" && grep -qx '[1-9][0-9]*' "$work/count"
}
expect "the forms of every sample's table agree" rows_of samples/*.eas
expect "the forms agree for names of every byte" rows_of "$work/bytes.eas"
expect "256 rows were compared" grep -qx 256 "$work/count"
expect "no states, no rows" test "$("$tool" table -f json "$work/none.eas" | tr -d '\n')" = "[]"
expect "no states: the headings alone" test "$("$tool" table -f csv "$work/none.eas" | wc -l)" -eq 1

# prints WHAT OUTPUT COMMAND...: the command ends with 0 and prints this.
prints() {
    printf '%s\n' "$2" > "$work/wanted"
    what=$1
    shift 2
    expect "$what" sh -c '"$@" 2> "$0/told" | cmp - "$0/wanted"' "$work" "$@"
}
prints "text" "no  name        wanted              given       density              answer  refused
 1  nose/cap 1  temperature     101330 Pa   1.292 kg/m³        273.213936 K
 2  42          entropy      78408.4 J/kg   1.292 kg/m³  6118.2203 J/(kg K)
 3  hot         temperature   10133000 Pa  0.1292 kg/m³                      13: the fitted temperature is outside 273.15 \
to about 24,900 K" "$tool" table samples/sample.eas
prints "standard input" "$("$tool" table samples/sample.eas)" sh -c "'$tool' table < samples/sample.eas"
expect "a name that is no text is shown in percent form" sh -c "'$tool' table '$work/bytes.eas' | grep -q '^256  %FF (spelled) '"
expect "and so is a remark" sh -c "'$tool' table '$work/bytes.eas' | grep -q ' a%00%22%5C (spelled)\$'"

# Run lists: in their order, one row a line.
printf 'hot\nnose%%2fcap%%201\nabsent\n42\nhot\n' > "$work/names"
prints "a run list" "no  name        wanted              given       density              answer  refused
 3  hot         temperature   10133000 Pa  0.1292 kg/m³                      13: the fitted temperature is outside 273.15 \
to about 24,900 K
 1  nose/cap 1  temperature     101330 Pa   1.292 kg/m³        273.213936 K
    absent                                                                   9: no state of the sheet has this name
 2  42          entropy      78408.4 J/kg   1.292 kg/m³  6118.2203 J/(kg K)
 3  hot         temperature   10133000 Pa  0.1292 kg/m³                      13: the fitted temperature is outside 273.15 \
to about 24,900 K" "$tool" table --names="$work/names" samples/sample.eas
expect "a run list without fault is not told" test ! -s "$work/told"
numbers() {
    cat tests/expected/list.txt | "$tool" table -f csv --names=- samples/sample.eas 2> "$work/told" | tail -n +2 |
        cut -d , -f 1,10 | tr '\n' ' ' > "$work/numbers" && cat "$work/numbers"
    "$tool" table -f json --names=tests/expected/list.txt samples/sample.eas 2> "$work/told" | python3 -c '
import json, sys
print(*(f"{r['"'number'"'] or '"''"'},{r['"'refusal'"'] or '"''"'}" for r in json.load(sys.stdin)), end=" ")' | cmp - "$work/numbers"
}
expect "CSV and JSON of a run list agree" numbers

# explained LINE REASON: a line of a run list is refused with this reason, and told.
wrong_spelling="a byte or a percent form of the spelled name is wrong"
explained() {
    printf "42\n$1" > "$work/names"
    "$tool" table -f csv --names="$work/names" samples/sample.eas > "$work/rows" 2> "$work/told" || return 1
    cat "$work/rows" "$work/told"
    test "$(cat "$work/told")" = "sheet_tool: $work/names: line 2: refusal $2" &&
        test "$(tail -n 1 "$work/rows" | tr -d '\r' | grep -cF ",${2%%:*},${2#*: },")" -eq 1
}
expect "a raw name" explained 'nose/cap 1\n' "7: $wrong_spelling: 'nose/cap 1' would be spelled nose%2Fcap%201"
expect "a carriage return" explained 'hot\r\n' "7: $wrong_spelling: it ends with a carriage return: the list has line \
ends CR LF"
expect "a raw name with a carriage return" explained 'nose/cap 1\r\n' "7: $wrong_spelling: it ends with a carriage return: the list has line \
ends CR LF: 'nose/cap 1' would be spelled nose%2Fcap%201"
expect "a cut percent form" explained 'a%%2\n' "7: $wrong_spelling: 'a%2' would be spelled a%252"
expect "an empty line" explained '\n' "8: the name has no bytes or over 40"
expect "a zero byte" explained 'a\000b\n' "7: $wrong_spelling: 'a?b' would be spelled a%00b"
expect "a long raw line" explained "$(printf '%0200d' 0) \n" "7: $wrong_spelling: '$(printf '%060d' 0)…'"
expect "no line at the end" explained 'x y' "7: $wrong_spelling: 'x y' would be spelled x%20y"

# The longest list: 32,768 names in a sheet of 2,978 states.
{ echo name,kind,first,density; seq 1000 3977 | sed 's/$/,1,101330000000,129200000000/'; } | "$tool" pack -o "$work/full.eas" \
    2> "$work/said"
yes '' | head -n 32768 | awk '{ print 1 + NR % 9 }' > "$work/names"
longest() {
    "$tool" table -f csv -n "$work/names" -o "$work/rows" "$work/full.eas" && test "$(wc -l < "$work/rows")" -eq 32769
}
expect "the longest list" longest
echo >> "$work/names"
ends "a longer list" 1 "sheet_tool: $work/names: refusal 15: the name list is over 65,536 bytes" \
    "$tool" table -n "$work/names" "$work/full.eas"

# Wrong use, wrong files.
try="
Try 'sheet_tool --help'."
ends "a form that is none" 2 "sheet_tool: 'xml' is none of text, csv and json$try" "$tool" table --format=xml samples/sample.eas
ends "two standard inputs" 2 "sheet_tool: the sheet and the run list cannot both be standard input$try" \
    "$tool" table --names=-
ends "no run list there" 1 "sheet_tool: $work/nothing: No such file or directory" \
    "$tool" table --names="$work/nothing" samples/sample.eas
ends "a cut sheet" 1 \
    "sheet_tool: standard input: record 3: refusal 4: bytes are missing from a record, or left over after the last" \
    sh -c "head -c 70 samples/sample.eas | '$tool' table"
ends "no sheet" 1 "sheet_tool: standard input: refusal 2: not a sheet: under 7 bytes, or it does not begin with EAS" \
    sh -c "head -c 100000 /dev/zero | tail -c 9 | '$tool' table"
ends "--format elsewhere" 2 "sheet_tool: --format and --names belong to table$try" "$tool" list -f csv samples/sample.eas
ends "a full disk" 1 "sheet_tool: /dev/full: No space left on device" "$tool" table -o /dev/full samples/sample.eas
finish table
