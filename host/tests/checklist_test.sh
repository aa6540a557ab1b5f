#!/bin/sh
# checklist_test.sh BUILD: the checklist on the samples and on sheets made here, and with one fault at a time put in
# front of the library (tests/faults.c).
cd "$(dirname "$0")/.." || exit 1
. tests/check.sh
build=$1
for program in checklist faults shown sheet_tool; do
    test -x "$build/$program" || { skip "$program was not built"; finish checklist; }
done

# sheet FILE LINE...: packs a sheet of these lines with raw names.
sheet() {
    file=$1
    shift
    printf '%s\n' "$@" > "$work/states.csv"
    "$build/sheet_tool" pack -o "$file" "$work/states.csv"
}

# status WANTED COMMAND...: the command must end with this status; its output is kept.
status() {
    wanted=$1
    shift
    "$@" > "$work/output" 2> "$work/errors"
    got=$?
    cat "$work/output" "$work/errors"
    test $got -eq "$wanted"
}

# has PATTERN...: each must stand in the output.
has() {
    for pattern in "$@"; do
        grep -q -- "$pattern" "$work/output" || { echo "missing: $pattern"; return 1; }
    done
}

# group TITLE: the output's part about one group of sheets.
group() {
    sed -n "/^$1/,/^\$/p" "$work/output"
}

# verdict TITLE LINE WORDS: what a group says of a check, by its number, or of a further line, by its title.
verdict() {
    group "$1" | grep -q "^ *$2.*  *$3" || { echo "not '$3' for $2 of $1"; return 1; }
}

all_pass() {
    for check in 1 2 3 4 5; do
        verdict "$1" $check PASSED || return 1
    done
}

# fails_only TITLE CHECK: this check failed in the group, and nothing else did.
fails_only() {
    verdict "$1" "$2" FAILED && test "$(group "$1" | grep -c " FAILED\$")" -eq 1
}

packs_to_stored_sheet() {
    "$build/sheet_tool" pack "samples/$1.csv" | cmp - "samples/$1.eas"
}

# ---- the library as it is

passes_samples() {
    status 0 "$build/$1" && all_pass "Shipped samples" && has "^No sheet was given"
}

# A kept report says what it is of.
names_version_and_day() {
    version=$(sed -n 's/^#define EAS_VERSION "\(.*\)"/\1/p' ../include/airstate.h)
    before=$(date +%Y-%m-%d)
    "$build/checklist" > "$work/output"
    head -n 1 "$work/output" | grep -qx -e "Checklist of the library airstate $version, $before" \
        -e "Checklist of the library airstate $version, $(date +%Y-%m-%d)"
}

# What an ordinary sheet does not have is no fault.
passes_ordinary_sheet() {
    status 0 "$build/checklist" samples/sample.eas && verdict "Given sheet" 1 PASSED && verdict "Given sheet" 2 PASSED &&
        verdict "Given sheet" 3 "not in this sheet\$" && verdict "Given sheet" 4 "not in this sheet\$" &&
        verdict "Given sheet" 5 "PASSED at 1 state, such as hot; other places are not in the sheet" &&
        has "Of five checks 2 passed, 1 passed in part, 0 failed, 2 found no state in this sheet[.]" &&
        ! grep -q missing: "$work/output"
}

# In the strict form what a sheet lacks is told and is no pass for it, whatever the samples have.
tells_what_is_missing() {
    status 1 "$build/checklist" --strict samples/sample.eas && all_pass "Shipped samples" &&
        verdict "Given sheet" 1 PASSED && verdict "Given sheet" 2 PASSED && verdict "Given sheet" 5 INCOMPLETE &&
        verdict "Given sheet" 3 "NO STATE TO LOOK AT, no pass for this sheet" &&
        verdict "Given sheet" 4 "NO STATE TO LOOK AT, no pass for this sheet" &&
        has "- a hot state on the lower density edge" "- a hot state beside the strip at the upper density edge" \
            "2 passed, 0 failed, 3 lack a state"
}

# The states that the checklist names as examples are what a sheet needs.
passes_complete_sheet() {
    sheet "$work/names.eas" name,pressure_Pa,density_kg_m3 'nose/cap 1,101330,1.292' 42,101330,1.292 plain,50665,1.292
    status 1 "$build/checklist" --strict "$work/names.eas"
    group "Given sheet" | sed -n 's|.*(such as \([0-9.]*\) Pa, \([0-9.]*\) kg/m³)|\1,\2|p' > "$work/examples"
    test "$(wc -l < "$work/examples")" -eq 10 || return 1
    awk '{ print "state-" NR "," $0 }' "$work/examples" >> "$work/states.csv"
    "$build/sheet_tool" pack -o "$work/complete.eas" "$work/states.csv" &&
        status 0 "$build/checklist" --strict "$work/complete.eas" && all_pass "Given sheet" &&
        all_pass "Shipped samples" && has "such as nose/cap 1 (spelled nose%2Fcap%201)" &&
        verdict "Given sheet" "Every other state" "PASSED at 1 state, such as plain"
}

# The same states with remarks, some of which look like names, spellings and records.
passes_with_remarks() {
    awk -F , 'NR == 1 { print $0 ",remark,remark_spelled" }
        NR > 1 { print $0 (NR % 3 == 0 ? ",," : NR % 3 == 1 ? ",42," : ",,nose%2Fcap%201%01%00%00%FF") }' "$work/states.csv" \
        > "$work/remarks.csv"
    "$build/sheet_tool" pack -o "$work/remarks.eas" "$work/remarks.csv" &&
        status 0 "$build/checklist" --strict "$work/remarks.eas" && all_pass "Given sheet" &&
        verdict "Given sheet" "Every other state" "PASSED at 1 state, such as plain"
}

# A sheet that is too long for version 2 is rightly not converted.
passes_when_full() {
    { echo name,pressure_Pa,density_kg_m3; seq 1000 3977 | sed 's|$|,101330,1.292|'; } > "$work/full.csv" &&
        "$build/sheet_tool" pack -o "$work/full.eas" "$work/full.csv" && status 0 "$build/checklist" "$work/full.eas" &&
        verdict "Given sheet" 1 "not in this sheet" && verdict "Given sheet" Conversion PASSED && verdict "Given sheet" 2 PASSED
}

# rows FIRST: a sheet whose names are the numbers of their rows, counted from FIRST.
rows() {
    { echo name,pressure_Pa,density_kg_m3; seq "$1" $(($1 + 4)) | awk '{ print $1 "," 101330 + 50665 * $1 ",1.292" }'; } |
        "$build/sheet_tool" pack -o "$work/rows.eas"
}

# reverses_rows FIRST WORDS: such names tell a name from a row, here counted from 1, in the checklist's own copy in
# reverse order.
reverses_rows() {
    rows "$1" && status 0 "$build/checklist" "$work/rows.eas" && verdict "Given sheet" 2 "PASSED at 4 states" &&
        status 1 env FAULT=2 "$build/faults" "$work/rows.eas" && fails_only "Given sheet" 2 && has "$2"
}

# A single name that is the number of its row cannot tell.
needs_a_name_unlike_its_row() {
    sheet "$work/row.eas" name,pressure_Pa,density_kg_m3 1,101330,1.292 &&
        status 1 "$build/checklist" --strict "$work/row.eas" && verdict "Given sheet" 2 "NO STATE TO LOOK AT"
}

# calls_out RAW SPELLED SPELLED_AGAIN: the raw name was never decoded; the run list has it spelled.
calls_out() {
    sheet "$work/encoded.eas" name,pressure_Pa,density_kg_m3 "$1,101330,1.292" other,202660,1.292 &&
        status 1 "$build/checklist" "$work/encoded.eas" && fails_only "Given sheet" 1 && all_pass "Shipped samples" &&
        has "1 name was encoded on export and never decoded, first $1\$" "^ *$2 finds no state" "^ *$2 ! 9\$" "Only $3 "
}

# Beside the name that it would be decoded to, a name with a percent form is a name like any other.
takes_percent_forms() {
    sheet "$work/both.eas" name,pressure_Pa,density_kg_m3 '%41,101330,1.292' A,202660,1.292 &&
        status 0 "$build/checklist" "$work/both.eas" && verdict "Given sheet" 1 PASSED
}

# ---- faults

remarks="Records and remarks" conversion=Conversion additions="States added"

# finds FAULT LINE [ENTRY]: this line fails, and no other, on the samples and on a given sheet.
finds() {
    status 1 env FAULT="$1" ENTRY="$3" "$build/faults" "$work/complete.eas" && fails_only "Shipped samples" "$2" &&
        fails_only "Given sheet" "$2"
}

# finds_in_samples FAULT LINE ENTRY: the same on the samples alone.
finds_in_samples() {
    status 1 env FAULT="$1" ENTRY="$3" "$build/faults" && fails_only "Shipped samples" "$2"
}

# finds_pressures FAULT CHECK [ENTRY]: with the fault in pressures alone, this check fails, and no other, on the samples;
# the given sheet, which has none, passes.
finds_pressures() {
    status 1 env FAULT="$1" ENTRY="$3" LETTER=P "$build/faults" "$work/complete.eas" &&
        fails_only "Shipped samples" "$2" && all_pass "Given sheet"
}

# finds_by_remarks [ENTRY]: the line of remarks fails, and no other, on the samples and on a sheet with remarks.
finds_by_remarks() {
    status 1 env FAULT=9 ENTRY="$1" "$build/faults" "$work/remarks.eas" && fails_only "Shipped samples" "$remarks" &&
        fails_only "Given sheet" "$remarks"
}

# The same states without remarks pass.
passes_without_remarks() {
    status 1 env FAULT=9 "$build/faults" "$work/complete.eas" && all_pass "Given sheet"
}

# finds_lost_remarks: the line of conversions fails, and no other, on the samples and on a sheet with remarks; one without passes.
finds_lost_remarks() {
    status 1 env FAULT=11 "$build/faults" "$work/remarks.eas" && fails_only "Shipped samples" $conversion &&
        fails_only "Given sheet" $conversion && has "remarks.eas to version 1: the library says \"not refused\", right is \"a state" &&
        status 1 env FAULT=11 "$build/faults" "$work/complete.eas" && all_pass "Given sheet"
}

# tells FAULT ENTRY WORDS: what a fault of this entry does to a sheet of version 1 is told in words.
tells() {
    status 1 env FAULT="$1" ENTRY="$2" "$build/faults" "$work/complete.eas" && group "Given sheet" | grep -q "$3"
}

# names_cause FAULT WORDS [SHEET]: the mistake is told in words.
names_cause() {
    status 1 env FAULT="$1" "$build/faults" "${3:-$work/complete.eas}" && group "Given sheet" | grep -q "(wrong: $2"
}

# A wrong state that no check looks at is told too.
finds_other_state() {
    status 1 env FAULT=6 "$build/faults" "$work/complete.eas" && fails_only "Given sheet" "Every other state"
}

# ---- what a customer's own program showed

# judged STATUS SHEET: what stands in the file of the work folder, for a sheet.
judged() {
    status "$1" "$build/checklist" --shown="$work/shown.csv" "$2"
}

# shows_fault FAULT LINE SHEET: a program that shows a sheet with a fault in front of the library; this line fails, and no
# other.
shows_fault() {
    FAULT=$1 "$build/shown" "$3" > "$work/shown.csv" && judged 1 "$3" && verdict "Shown in" "$2" "FAILED for" &&
        test "$(group "Shown in" | grep -c "  FAILED for")" -eq 1
}

shows_right() {
    "$build/shown" "$1" > "$work/shown.csv" && judged 0 "$1" && has "are right, 0 are wrong, 0 cannot be read[.]"
}

# file LINE...: what a program showed.
file() {
    printf '%s\n' "$@" > "$work/shown.csv"
}

# Rounded, cut, with other units, spelled, in quotes, with semicolons: all are right.
takes_digits_and_units() {
    file name,value,unit 'nose/cap 1,273.21,K' nose%2Fcap%201,273.214,K '"nose/cap 1", 2.73e2 ,K' 'nose/cap 1,273.213936000,' \
        '42,6118.2,J/(kg K)' 42,6.118220,kJ/kg/K hot hot,, hot,blank, 43 && judged 0 samples/sample.eas &&
        has "Of 10 lines 10 are right" && printf 'name;value;unit\r\nhot;;\r\n42;6118;J/(kg K)\r\n' > "$work/shown.csv" &&
        judged 0 samples/sample.eas && has "Of 2 lines 2 are right" \
        "1 state of the sheet is not in the file, first nose/cap 1 (spelled nose%2Fcap%201)"
}

# Each unit that the documents name, for a pressure of 689732 Pa and for an entropy.
takes_units() {
    file 'upper-edge/on 4,689732,Pa' 'upper-edge/on 4,6.89732e8,mPa' 'upper-edge/on 4,6897.32,hPa' \
        'upper-edge/on 4,689.732,kPa' 'upper-edge/on 4,0.689732,MPa' 'upper-edge/on 4,0.000689732,GPa' \
        'upper-edge/on 4,6897.32,mbar' 'upper-edge/on 4,6.89732,bar' 'upper-edge/on 4/s,10510.0,J/(kg K)' \
        'upper-edge/on 4/s,10510.0,J/kg/K' 'upper-edge/on 4/s,10.51,kJ/(kg K)' 'upper-edge/on 4/s,10.5100,kJ/kg/K' &&
        judged 0 samples/energy-and-pressure.eas && has "Of 12 lines 12 are right" &&
        for unit in K $(cut -d , -f 3 "$work/shown.csv" | tr ' ' _); do
            unit=$(echo "$unit" | tr _ ' ')
            grep -qF -e "$unit, " -e "$unit or " -e "or $unit" ../docs/CHECKLIST.md || { echo "no $unit in the document"; return 1; }
        done
}

# The document's own example.
takes_document() {
    sed -n '/^    name,value,unit$/,/^    hot$/s/^    //p' ../docs/CHECKLIST.md > "$work/shown.csv" &&
        judged 0 samples/sample.eas && has "Of 3 lines 3 are right"
}

tells_each_line() {
    file 'nose/cap 1,273.22,K' 42 hot,24000,K 7,273.2,K 42,6118.2203,K 'nose/cap 1,cold,K' 'nose/cap 1,273.2,F' &&
        judged 1 samples/sample.eas &&
        has "line 1, nose/cap 1 (spelled nose%2Fcap%201): 273.22 K (wrong); right is 273.213936 K" \
            "line 2, 42: nothing (wrong: the sheet has this name); right is 6118.220300 J/(kg K)" \
            "line 3, hot: 24000 K (wrong: a value means nothing here); right is nothing: the fitted temperature" \
            "line 4, 7: 273.2 K (wrong: no state has this name); right is nothing: no state" \
            "line 5, 42: 6118.2203 K (wrong); right is 6118.220300 J/(kg K)" \
            "line 6, nose/cap 1 (.*): cannot be read: the value is no number: cold K" \
            "line 7, nose/cap 1 (.*): cannot be read: the unit is not known: 273.2 F" \
            "Of 7 lines 0 are right, 5 are wrong, 2 cannot be read[.]"
}

# A row's answer under a name of digits is told with its state.
tells_whose_value() {
    rows 11 && FAULT=2 "$build/shown" "$work/rows.eas" > "$work/shown.csv" && judged 0 "$work/rows.eas" &&
        sheet "$work/two.eas" name,pressure_Pa,density_kg_m3 2,101330,1.292 1,202660,1.292 &&
        FAULT=2 "$build/shown" "$work/two.eas" > "$work/shown.csv" && judged 1 "$work/two.eas" &&
        has "line 2, 2: .* K (wrong, that is 1 in row 2); right is 273.213936 K"
}

# refuses_shown FILE SHEET LINE
refuses_shown() {
    status 1 "$build/checklist" --shown="$1" "$2" && has "^       $3" "The sheet can be read *FAILED\|The file can be read *FAILED"
}

# ---- the document

# Each wrong program and each theorem that docs/CHECKLIST.md cites stands in crates/.
cites_what_stands() {
    grep -o '`[a-z0-9_]*/[a-z0-9_]*`' ../docs/CHECKLIST.md | tr -d '`' | sed 's|/|/must-fail/|; s|$|.edit|' > "$work/edits"
    grep -o '`[a-z0-9_-]*` in [a-z0-9_]*/[a-z]*/[A-Za-z0-9]*[.][a-z]*' ../docs/CHECKLIST.md | tr -d '`' > "$work/theorems"
    test -s "$work/edits" && test -s "$work/theorems" || return 1
    while read -r edit; do
        test -f "../crates/$edit" || { echo "no $edit"; return 1; }
    done < "$work/edits"
    while read -r name _ file; do
        grep -Eq "^ *pub (fn )?$name( :|\()" "../crates/$file" || { echo "no $name in $file"; return 1; }
    done < "$work/theorems"
}

# Each state that the checklist gives as an example stands in the document.
documents_examples() {
    while IFS=, read -r pressure density; do
        grep -q "| $pressure Pa | $density kg/m³ |" ../docs/CHECKLIST.md || { echo "no $pressure Pa"; return 1; }
    done < "$work/examples"
}

# ---- use

# refuses FILE REASON: a sheet that cannot be read is a line of the report, and nothing is said elsewhere.
refuses() {
    status 1 "$build/checklist" "$1" && fails_only "Given sheet" "The sheet can be read" && has "^ *$1: $2" \
        "None of the five checks was made" && all_pass "Shipped samples" && test ! -s "$work/errors"
}

# Where some of the samples cannot be read the sum says so.
refuses_a_sample() {
    mkdir -p "$work/samples" && cp samples/*.eas "$work/samples" && printf EAT > "$work/samples/sample.eas" &&
        status 1 "$build/checklist" --samples="$work/samples" && all_pass "Shipped samples" &&
        has "sample.eas: refusal 2: " "Of five checks 5 passed, 0 failed, 0 lack a state; 1 further line FAILED[.]"
}

expect "the edges and transitions pack to the stored sheet" packs_to_stored_sheet edges-and-transitions
expect "the energies and pressures pack to the stored sheet" packs_to_stored_sheet energy-and-pressure
expect "the states with remarks pack to the stored sheet" packs_to_stored_sheet with-remarks
expect "the samples pass" passes_samples checklist
expect "the samples pass through the shim without a fault" passes_samples faults
expect "the report has the version and the day" names_version_and_day
expect "an ordinary sheet passes" passes_ordinary_sheet
expect "what a sheet lacks is told" tells_what_is_missing
expect "a sheet with all examples passes" passes_complete_sheet
expect "so does one with remarks" passes_with_remarks
expect "so does one that version 2 does not hold" passes_when_full
expect "names like their rows, from 0, are told from rows" reverses_rows 0 "(wrong, that is 0 in row 1)"
expect "names like their rows, from 1, are told from rows" reverses_rows 1 \
    "(right, but another where the sheet's states stand in reverse order)"
expect "a single one cannot tell" needs_a_name_unlike_its_row
expect "a name that was never decoded is called out" calls_out nose%2Fcap%201 nose%2Fcap%201 nose%252Fcap%25201
expect "a name that was encoded in part is called out" calls_out nose/cap%201 nose%2Fcap%201 nose%2Fcap%25201
expect "a percent form may be a name's own" takes_percent_forms
for fault in 1 2 3 4 5 7; do
    check=$fault
    test $fault -ne 7 || check=3
    for entry in "" search plot line list; do
        expect "fault $fault is found, by ${entry:-every entry}" finds $fault $check $entry
    done
    expect "fault $fault is found, by a walk" finds_in_samples $fault $check next
done
for fault in 1 2; do
    for entry in find remark; do
        expect "fault $fault is found, by $entry alone" finds $fault $fault $entry
    done
done
expect "a row that is given for a number is told" tells 2 find \
    "^ *record .*(wrong: no state has this name, that is .* in row .*; right is nothing: no state of the sheet has this name)"
for fault in 3 4 5 7 8; do
    due=$fault
    test $fault -le 5 || due=3
    for entry in "" search plot line list next; do
        expect "fault $fault in pressures is found, by ${entry:-every entry}" finds_pressures $fault $due $entry
    done
done
for entry in "" search plot line list next find remark; do
    expect "an answer that depends on remarks is found, by ${entry:-every entry}" finds_by_remarks $entry
done
expect "without remarks it is right" passes_without_remarks
for entry in "" forward back; do
    expect "a conversion that loses a state is found, by ${entry:-every entry}" finds 10 $conversion $entry
done
expect "a state that is lost is told" tells 10 forward \
    "(right, but another where the sheet is converted to its other version)"
expect "a sheet that does not come back is told" tells 10 back \
    "complete.eas to version 2 and back does not return the same bytes"
expect "a conversion that loses remarks is found" finds_lost_remarks
for entry in "" add; do
    expect "a name that is added and never decoded is found, by ${entry:-every entry}" finds 12 "$additions" $entry
done
expect "a sheet that grows wrongly is told" tells 12 add \
    "adding a state to $work/complete.eas: the length of the result is wrong"
for entry in "" next; do
    expect "a walk over states that are added later is found, by ${entry:-every entry}" finds 13 "$additions" $entry
done
for entry in "" find; do
    expect "another name's place is found, by ${entry:-every entry}" finds 14 "$remarks" $entry
done
expect "another name's place is told" tells 14 find \
    "^ *record *kind 1, .*, its name 2 bytes from .* (wrong, that is 42 in row 2; right is kind 1, .*, its name 10 bytes from 8 on)"
for entry in "" record_at; do
    expect "rows that are counted from 1 are found, by ${entry:-every entry}" finds 15 2 $entry
done
expect "another row is told" tells 15 record_at "^ *row *kind 1, .* (wrong, that is 42 in row 2; right is kind 1, .*)"
for entry in "" remark; do
    expect "a remark's place that is always 0 is found, by ${entry:-every entry}" finds 16 "$remarks" $entry
    expect "the next record's remark is found, by ${entry:-every entry}" finds 17 "$remarks" $entry
done
expect "a remark's wrong place is told" tells 16 remark \
    "^ *remark *0 bytes from 0 on (wrong; right is 0 bytes from 35 on)"
expect "another's remark is told" tells 17 remark "^ *remark .* (wrong, that is 42 in row 2; right is 0 bytes from 35 on)"
expect "such a walk is told" tells 13 next "^ *walk .*(right, but another where states are added to the sheet)"
expect "remarks that change an answer are named" names_cause 9 "the sheet's remarks change what is shown)" "$work/remarks.eas"
expect "a neighbour's curve is named" names_cause 3 "by the curve of the neighbouring density range)"
expect "a missing join is named" names_cause 7 "by the curve of one density range, not joined between two)"
expect "a lost sign is named" names_cause 4 "the two curves of the transition are weighed the wrong way round)"
sheet "$work/pressures.eas" name,kind,energy_J_kg,density_kg_m3 'beside,pressure,7840840,0.41808300475' \
    'on,pressure,7840840,0.40856627369'
expect "a neighbour's curve is named in a pressure" names_cause 3 "by the curve of the neighbouring density range)" \
    "$work/pressures.eas"
expect "a missing join is named in a pressure" names_cause 7 \
    "by the curve of one density range, not joined between two)" "$work/pressures.eas"
expect "a lost sign is named in a pressure" names_cause 4 \
    "the two curves of the transition are weighed the wrong way round)" "$work/pressures.eas"
expect "densities of the strip's ends are named" names_cause 8 \
    "joined with the densities of the strip's ends, not with the state's own)" "$work/pressures.eas"
expect "a wrong state that no check looks at is found" finds_other_state
expect "what the document cites stands" cites_what_stands
expect "the document has the examples" documents_examples
expect "a missing sheet is told" refuses "$work/none.eas" "No such file"
printf EAT > "$work/wrong.eas"
expect "a file that is no sheet is told" refuses "$work/wrong.eas" "refusal 2: "
printf 'EAS\0\002\0\001\001a\001' > "$work/cut.eas"
expect "a damaged sheet is told with its record" refuses "$work/cut.eas" "record 1: refusal 4: "
expect "a sample that cannot be read is told" refuses_a_sample
expect "missing samples are told" status 1 "$build/checklist" --samples="$work"
for sample in sample slash-and-space digits-only edges-and-transitions energy-and-pressure with-remarks; do
    expect "what shows $sample as it is is right" shows_right samples/$sample.eas
done
expect "a program that finds no percent form" shows_fault 1 1 "$work/complete.eas"
expect "a program that takes names for rows" shows_fault 2 2 samples/digits-only.eas
for fault in 3 7; do
    expect "fault $fault in temperatures that are shown" shows_fault $fault 3 "$work/complete.eas"
    expect "fault $fault in pressures that are shown" shows_fault $fault 3 samples/energy-and-pressure.eas
done
expect "a lost sign that is shown" shows_fault 4 4 "$work/complete.eas"
expect "a lost sign in pressures that are shown" shows_fault 4 4 samples/energy-and-pressure.eas
expect "values that mean nothing are shown" shows_fault 5 5 "$work/complete.eas"
expect "pressures that mean nothing are shown" shows_fault 5 5 samples/energy-and-pressure.eas
sheet "$work/plain.eas" name,pressure_Pa,density_kg_m3 plain,101330,1.292
expect "a microkelvin too much is shown" shows_fault 6 "Every other state" "$work/plain.eas"
expect "densities of a strip's ends that are shown" shows_fault 8 3 samples/energy-and-pressure.eas
sheet "$work/remarked.eas" name,pressure_Pa,density_kg_m3,remark 'a/b,101330,1.292,late' 'c/d,101330,1.292,'
expect "a state with a remark that is not shown" shows_fault 9 1 "$work/remarked.eas"
expect "values rounded, cut and in other units are right" takes_digits_and_units
expect "every unit is read" takes_units
expect "the document's example is right" takes_document
expect "each wrong line is told" tells_each_line
expect "another state's value is told" tells_whose_value
expect "a file that is not there is told" refuses_shown "$work/none.csv" samples/sample.eas "$work/none.csv: No such file"
expect "a sheet that is not there is told" refuses_shown "$work/shown.csv" "$work/none.eas" "$work/none.eas: No such file"
expect "--shown without a sheet is misuse" status 2 "$build/checklist" --shown="$work/shown.csv"
expect "a report that cannot be written is told" sh -c "'$build/checklist' > /dev/full 2> '$work/errors'
    test \$? -eq 1 && grep -q '^checklist: standard output: No space left on device' '$work/errors'"
expect "--help" status 0 "$build/checklist" --help
expect "--version" status 0 "$build/checklist" --version
expect "an unknown option is misuse" status 2 "$build/checklist" --nothing
finish checklist
