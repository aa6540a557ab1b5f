#!/bin/sh
# sheet_tool_test.sh BUILD: sheet_tool on the texts that labs send and on sheets of both versions, right and wrong ones.
cd "$(dirname "$0")/.." || exit 1
. tests/check.sh
tool=$1/sheet_tool
test -x "$tool" || { skip "sheet_tool was not built"; finish sheet_tool; }

# text FORMAT: the text at hand, as printf writes it.
text() {
    printf "$1" > "$work/text.csv"
}

# packs TEXT: packing the text and unpacking it with spelled names gives the text's lines below the heading.
packs() {
    "$tool" pack -o "$work/sheet.eas" "$work/text.csv" && "$tool" unpack --spelled "$work/sheet.eas" > "$work/back" &&
        tail -n +2 "$work/back" > "$work/lines" && printf "$1" | cmp - "$work/lines"
}

# told: what was said before the last line, which has the states, the bytes and how many will be refused.
told() {
    tail -n 1 "$work/said" | grep -q "^sheet_tool: $work/text.csv: [0-9]* states\{0,1\}, [0-9]* of 65,536 bytes used.*; .* refused" &&
        head -n -1 "$work/said"
}

# right WHAT TEXT LINES: the text is packed, and nothing but its states is told; unpacked it has these lines.
right() {
    text "$2"
    expect "$1" packs "$3"
    told > "$work/notes"
    expect "$1: no message" test $? -eq 0 -a ! -s "$work/notes"
}

# noted WHAT TEXT LINES NOTE: the text is packed with this note.
noted() {
    text "$2"
    expect "$1" packs "$3"
    expect "$1: the note" test "$(told)" = "sheet_tool: $work/text.csv: $4"
}

# wrong WHAT TEXT MESSAGE: the text is refused with this message and nothing is written.
wrong() {
    text "$2"
    ends "$1" 1 "sheet_tool: $work/text.csv: $3" "$tool" pack "$work/text.csv"
}

whole='kind,first,density\n'
si='name,pressure_Pa,density_kg_m3\n'
both='name,pressure_Pa,energy_J_kg,density_kg_m3\n'

# What spreadsheets and loggers write.
right "plain" 'name,'$whole'a,1,2,3\n' 'a,1,2,3\n'
right "byte-order mark" '\357\273\277'$si'a,1,1\n' 'a,1,1000000,100000000000\n'
right "carriage returns" 'name,pressure_Pa,density_kg_m3\r\na,1,1\r\nb,2,1\r\n' \
    'a,1,1000000,100000000000\nb,1,2000000,100000000000\n'
right "carriage returns alone" 'name,pressure_Pa,density_kg_m3\ra,1,1\r' 'a,1,1000000,100000000000\n'
right "no newline at the end" $si'a,1,1' 'a,1,1000000,100000000000\n'
right "quoted fields" '"name","pressure_Pa","density_kg_m3"\n"a","1","1"\n' 'a,1,1000000,100000000000\n'
right "a comma and quotes in a name" $si'"a, ""b""",1,1\n' 'a%%2C%%20%%22b%%22,1,1000000,100000000000\n'
right "a newline in a name" $si'"a\nb",1,1\nc,1,1\n' 'a%%0Ab,1,1000000,100000000000\nc,1,1000000,100000000000\n'
right "semicolons" 'name;pressure_Pa;density_kg_m3\na;1;1\n' 'a,1,1000000,100000000000\n'
right "tabs" 'name\tpressure_Pa\tdensity_kg_m3\na\t1\t1\n' 'a,1,1000000,100000000000\n'
right "blank lines and empty rows" $si'\na,1,1\n,,\n  \nb,1,1\n' \
    'a,1,1000000,100000000000\nb,1,1000000,100000000000\n'
right "a quoted nothing" '""\n'$si'""\na,1,1\n' 'a,1,1000000,100000000000\n'
right "empty fields behind the heading's" $si'a,1,1,,\n' 'a,1,1000000,100000000000\n'
right "columns in another order" 'density_kg_m3,name,pressure_Pa\n1,a,2\n' 'a,1,2000000,100000000000\n'
right "headings in capitals" 'Name,PRESSURE_PA,Density_kg_m3\na,2,1\n' 'a,1,2000000,100000000000\n'
right "comments above the heading" '# a run\n\n# of today\n'$si'a,1,1\n' 'a,1,1000000,100000000000\n'
right "comments below it, where names are spelled" 'spelled,'$whole'# x\na,1,2,3\n' 'a,1,2,3\n'
noted "a column that is not read" 'name,gauge,pressure_Pa,density_kg_m3\na,x,1,1\n' 'a,1,1000000,100000000000\n' \
    "line 1: note: the column 'gauge' is not read"
noted "no states" $si '' 'note: there are no states below the heading'

# Names.
right "a slash and spaces" $si'nose/cap 1,1,1\n' 'nose%%2Fcap%%201,1,1000000,100000000000\n'
right "spaces around a name belong to it" $si'  a  ,1,1\n\tb\t,1,1\na,1,1\n' \
    '%%20%%20a%%20%%20,1,1000000,100000000000\n%%09b%%09,1,1000000,100000000000\na,1,1000000,100000000000\n'
right "spaces around a quoted name do not" $si' "a, b" ,1,1\n  "c""d"\t,1,1\n' \
    'a%%2C%%20b,1,1000000,100000000000\nc%%22d,1,1000000,100000000000\n'
right "spaces around numbers, headings and kinds" ' name , kind, first ,density\na, 1 ,  2,3  \n' 'a,1,2,3\n'
right "quoted spaces do" $si'" a ",1,1\n' '%%20a%%20,1,1000000,100000000000\n'
right "UTF-8" $si'D\303\274se,1,1\n' 'D%%C3%%BCse,1,1000000,100000000000\n'
right "bytes that are no UTF-8" $si'D\374se,1,1\n' 'D%%FCse,1,1000000,100000000000\n'
right "a zero byte" $si'a\000b,1,1\n' 'a%%00b,1,1000000,100000000000\n'
right "digits only: three names" $si'1,1,1\n01,1,1\n001,1,1\n' \
    '1,1,1000000,100000000000\n01,1,1000000,100000000000\n001,1,1000000,100000000000\n'
right "a name that begins with #" $si'#1,1,1\n' '%%231,1,1000000,100000000000\n'
right "spelled in either case" 'spelled,'$whole'a%%2fb,1,2,3\n' 'a%%2Fb,1,2,3\n'
right "raw or spelled" 'name,spelled,'$whole'a b,,1,2,3\n,a%%20c,1,2,3\n' 'a%%20b,1,2,3\na%%20c,1,2,3\n'
noted "a raw name in percent form" $si'a%%2Fb,1,1\n' 'a%%252Fb,1,1000000,100000000000\n' \
    "line 2: note: 'a%2Fb' is taken as it stands; names in percent form belong in a column 'spelled'"
right "a percent sign that is no form" $si'50%%,1,1\n' '50%%25,1,1000000,100000000000\n'
forty=0123456789012345678901234567890123456789
right "forty bytes" $si$forty',1,1\n' $forty',1,1000000,100000000000\n'

# Kinds and numbers.
right "the kind by its columns" $both'a,1,,1\nb,,1,1\n' 'a,1,1000000,100000000000\nb,2,1000,100000000000\n'
right "the kind in words" \
    'name,kind,pressure_Pa,energy_J_kg,density_kg_m3\na,entropy,1,1,1\nb,Temperature,1,1,1\nc,PRESSURE,,1,1\n' \
    'a,2,1000,100000000000\nb,1,1000000,100000000000\nc,3,1000,100000000000\n'
right "the kind by its number" 'name,kind,energy_J_kg,density_kg_m3\na,2,1,1\nb,3,1,1\n' \
    'a,2,1000,100000000000\nb,3,1000,100000000000\n'
right "energy and density without a kind" 'name,energy_J_kg,density_kg_m3\na,1,1\n' 'a,2,1000,100000000000\n'
right "whole units of a pressure's energy" 'name,'$whole'a,3,7,9\n' 'a,3,7,9\n'
right "whole units and SI" 'name,kind,first,density_kg_m3\na,1,7,1\n' 'a,1,7,100000000000\n'
right "decimals and exponents" $si'a,101330.5,1.292\nb,1.0133e5,1292E-3\nc,+.5,12.92e-1\nd,1e-6,0.00000000001\n' \
    'a,1,101330500000,129200000000\nb,1,101330000000,129200000000\nc,1,500000,129200000000\nd,1,1,1\n'
right "zeros that say nothing" $si'a,0001.50000000000000000000,100000000000000000000e-20\n' \
    'a,1,1500000,100000000000\n'
right "nothing and the most" 'name,'$whole'a,1,0,18446744073709551615\n' 'a,1,0,18446744073709551615\n'
right "the most in SI" $si'a,18446744073709.551615,184467440.73709551615\n' \
    'a,1,18446744073709551615,18446744073709551615\n'

# Remarks. The version is 2 only where one is not empty.
version() {
    test "$(od -An -t u1 -j 3 -N 2 "$work/sheet.eas" | tr -d ' \n')" = "0$1"
}
remarked='name,'${whole%\\n}',remark\n' remarked_si=${si%\\n}',remark\n'
right "a remark" $remarked_si'a,1,1,"shot 1412, driver helium"\n' 'a,1,1000000,100000000000,"shot 1412, driver helium"\n'
expect "a remark makes version 2" version 2
right "an empty remark among others" $remarked'a,1,2,3,x\nb,1,2,3,\nc,1,2,3\nd,1,2,3,y z\n' \
    'a,1,2,3,x\nb,1,2,3,\nc,1,2,3,\nd,1,2,3,y z\n'
right "a remark in the last row alone" $remarked'a,1,2,3,\nbc,2,4,5,\nd,3,6,7,late\n' \
    'a,1,2,3,\nbc,2,4,5,\nd,3,6,7,late\n'
expect "the last row makes version 2" version 2
right "empty remarks alone" $remarked'a,1,2,3,\nb,1,2,3,""\n' 'a,1,2,3\nb,1,2,3\n'
expect "empty remarks alone are version 1" version 1
right "a remark in the first column" 'Remark,name,'$whole'"#1, ""x""",a,1,2,3\n' 'a,1,2,3,"#1, ""x"""\n'
right "a remark that begins with #, before spelled names" 'remark,spelled,'$whole'#1,a,1,2,3\n#2,b,1,2,3\n' \
    'a,1,2,3,"#1"\nb,1,2,3,"#2"\n'
right "comments where a remark comes last" 'spelled,'${whole%\\n}',remark\n# x\na,1,2,3,#1\n' 'a,1,2,3,"#1"\n'
right "spaces around a remark belong to it" $remarked'a,1,2,3,  x y  \n' 'a,1,2,3,"  x y  "\n'
right "quoted ones do" $remarked'a,1,2,3," x "\n' 'a,1,2,3," x "\n'
right "semicolons in a remark" $remarked'a,1,2,3,x;y\n' 'a,1,2,3,"x;y"\n'
right "a remark in UTF-8" $remarked'a,1,2,3,D\303\274se\n' 'a,1,2,3,D\303\274se\n'
right "a percent form in a remark" $remarked'a,1,2,3,50%%20\n' 'a,1,2,3,50%%20\n'
right "a newline in a remark" $remarked'a,1,2,3,"x\ny"\nb,1,2,3,z\n' 'a,1,2,3,,x%%0Ay\nb,1,2,3,z,\n'
right "carriage return and newline in a remark" $remarked'a,1,2,3,"x\r\ny"\r\n' 'a,1,2,3,x%%0D%%0Ay\n'
right "a remark that is no text" $remarked'a,1,2,3,D\374\000se\n' 'a,1,2,3,D%%FC%%00se\n'
right "spelled remarks" 'name,'${whole%\\n}',remark_spelled\na,1,2,3,%%c3%%BC%%41~\nb,1,2,3,%%00\n' \
    'a,1,2,3,\303\274A~,\nb,1,2,3,,%%00\n'
most=$(printf '%0255d' 0)
right "255 bytes" $remarked'a,1,2,3,'$most'\n' 'a,1,2,3,'$most'\n'
forms() {
    seq "$1" | sed 's/.*/%%FF/' | tr -d '\n'
}
right "255 spelled bytes" 'name,'${whole%\\n}',remark_spelled\na,1,2,3,'$(forms 255)'\n' 'a,1,2,3,'$(forms 255)'\n'
every_byte() {
    seq 0 254 | awk '{ printf "%%%%%02X", $1 }'
}
text 'name,'${whole%\\n}',remark_spelled\na,1,2,3,'$(every_byte)'\nb,1,2,3,%%FF%%61\n'
keeps_every_byte() {
    "$tool" pack "$work/text.csv" > "$work/bytes.eas" && "$tool" unpack "$work/bytes.eas" | "$tool" pack |
        cmp - "$work/bytes.eas" && tail -c +28 "$work/bytes.eas" | head -c 255 | od -An -v -t u1 | tr -s ' ' '\n' |
        grep . | cmp - "$work/counted"
}
seq 0 254 > "$work/counted"
expect "every byte comes back" keeps_every_byte
right "a remark and a repeated word" $remarked'a,1,2,3,a\nb,1,2,3,a\n' 'a,1,2,3,a\nb,1,2,3,a\n'

# Wrong texts.
wrong "empty" '' 'empty: a heading and states are wanted'
wrong "blank" '\n \n# x\n' 'empty: a heading and states are wanted'
wrong "UTF-16" '\377\376n\000' 'the text is UTF-16; save it as UTF-8'
wrong "no heading" 'a,1,2,3\n' \
    "line 1: no heading: the first row needs a column 'name', or 'spelled' for names in percent form; found: \
'a', '1', '2', '3'"
wrong "no values" 'name,pressure_kPa\na,1\n' "line 1: no columns for a state: pressure_Pa with density_kg_m3, or \
energy_J_kg with density_kg_m3, or kind, first and density in whole units; found: 'name', 'pressure_kPa'"
wrong "a heading twice" 'name,name,pressure_Pa,density_kg_m3\n' "line 1: the heading 'name' stands twice"
wrong "an open quote" $si'a,1,1\n"b,1,1\n' 'line 3: a quoted field has no end'
wrong "a quote inside a field" $si'a"b,1,1\n' 'line 2: no CSV: error parsing data while strict checking enabled'
wrong "too many fields" $si'a,1,1,292\n' 'line 2: 4 fields where the heading has 3'
wrong "no name" $si',1,1\n' 'line 2: refusal 8: the name has no bytes or over 40: it is empty'
wrong "a long name" $si$forty'x,1,1\n' \
    "line 2: refusal 8: the name has no bytes or over 40: '${forty}x' has 41"
wrong "a wrong spelling" 'spelled,'$whole'a%%2,1,2,3\n' \
    "line 2: refusal 7: a byte or a percent form of the spelled name is wrong: 'a%2'"
wrong "a space in a spelling" 'spelled,'$whole'a b,1,2,3\n' \
    "line 2: refusal 7: a byte or a percent form of the spelled name is wrong: 'a b'"
wrong "raw and spelled" 'name,spelled,'$whole'a,a,1,2,3\n' 'line 2: both a name and a spelled name are given'
wrong "a name twice" $si'a b,1,1\nc,1,1\n"a b",1,1\n' \
    'line 4: refusal 16: the name was seen earlier in the sheet, on line 2'
wrong "a name twice, with remarks" $remarked'a,1,2,3,x\nb,1,2,3,y\nc,1,2,3,\nb,1,2,3,z\n' \
    'line 5: refusal 16: the name was seen earlier in the sheet, on line 3'
wrong "256 bytes of a remark" $remarked'a,1,2,3,1'$most'\n' \
    "line 2: the remark has 256 bytes, and 255 is the most: '1$(printf '%059d' 0)…'"
wrong "256 spelled bytes" 'name,'${whole%\\n}',remark_spelled\na,1,2,3,'$(forms 256)'\n' \
    "line 2: the remark has 256 bytes, and 255 is the most: '$(forms 20 | tr -s %)…'"
wrong "a remark both raw and spelled" 'name,'${whole%\\n}',remark,remark_spelled\na,1,2,3,x,x\n' \
    'line 2: both a remark and a spelled remark are given'
for spelled in x%%2 %% %%4 %%zz a%%%%41 'x y' '\303\274'; do
    wrong "a wrong spelling of a remark" 'name,'${whole%\\n}',remark_spelled\na,1,2,3,'"$spelled"'\n' \
        "line 2: remark_spelled: refusal 7: a byte or a percent form of the spelled name is wrong: '$(printf "$spelled")'"
done
wrong "a remark without a state" $remarked',,,,x\n' 'line 2: refusal 8: the name has no bytes or over 40: it is empty'
wrong "a remark's heading twice" 'name,'${whole%\\n}',remark,Remark\n' "line 1: the heading 'Remark' stands twice"
wrong "an unknown kind" 'name,'$whole'a,4,2,3\n' "line 2: refusal 6: the kind is unknown: '4'"
wrong "an unknown kind in words" 'name,'$whole'a,energy,2,3\n' "line 2: refusal 6: the kind is unknown: 'energy'"
wrong "a kind of 257" 'name,'$whole'a,257,2,3\n' "line 2: refusal 6: the kind is unknown: '257'"
wrong "two kinds" $both'a,1,1,1\n' \
    "line 2: values of two kinds (pressure_Pa and energy_J_kg): a column 'kind' must say which is meant"
wrong "no first value" $both'a,,,1\n' \
    'line 2: no kind, and not pressure_Pa with density_kg_m3, or energy_J_kg with density_kg_m3'
wrong "the kind's value is missing" 'name,kind,pressure_Pa,density_kg_m3\na,2,1,1\n' 'line 2: the energy is missing'
wrong "the energy of a wanted pressure is missing" 'name,kind,pressure_Pa,density_kg_m3\na,pressure,1,1\n' \
    'line 2: the energy is missing'
wrong "too fine an energy" 'name,kind,energy_J_kg,density_kg_m3\na,3,1.0001,1\n' \
    "line 2: energy_J_kg: '1.0001' has more digits than the unit of 1e-3 J/kg holds; --round rounds to it"
wrong "a density twice" 'name,kind,first,density,density_kg_m3\na,1,1,1,1\n' \
    'line 2: the density is given twice, in density_kg_m3 and in density'
decimal='is no decimal number from 0 up, with a point before its decimals'
wrong "a word" $si'a,x,1\n' "line 2: pressure_Pa: 'x' $decimal"
wrong "a negative number" $si'a,-1,1\n' "line 2: pressure_Pa: '-1' $decimal"
wrong "a decimal comma" $si'a,"1,5",1\n' "line 2: pressure_Pa: '1,5' $decimal"
wrong "a space in a number" $si'a,1 000,1\n' "line 2: pressure_Pa: '1 000' $decimal"
wrong "an exponent without digits" $si'a,1e,1\n' "line 2: pressure_Pa: '1e' $decimal"
wrong "two points" $si'a,1.2.3,1\n' "line 2: pressure_Pa: '1.2.3' $decimal"
wrong "a point alone" $si'a,.,1\n' "line 2: pressure_Pa: '.' $decimal"
wrong "a hexadecimal number" $si'a,0x10,1\n' "line 2: pressure_Pa: '0x10' $decimal"
wrong "a number that is none" $si'a,nan,1\n' "line 2: pressure_Pa: 'nan' $decimal"
wrong "too fine a pressure" $si'a,1.0000001,1\n' \
    "line 2: pressure_Pa: '1.0000001' has more digits than the unit of 1e-6 Pa holds; --round rounds to it"
wrong "too fine a density" $si'a,1,1e-12\n' \
    "line 2: density_kg_m3: '1e-12' has more digits than the unit of 1e-11 kg/m³ holds; --round rounds to it"
wrong "a fraction of a unit" 'name,'$whole'a,1,2.5,3\n' \
    "line 2: first: '2.5' has more digits than the unit of 1e-6 Pa holds; --round rounds to it"
wrong "too large" 'name,'$whole'a,1,18446744073709551616,3\n' \
    "line 2: first: '18446744073709551616' is over 18446744073709551615"
wrong "far too large" $si'a,1e999999999999999999999,1\n' \
    "line 2: pressure_Pa: '1e999999999999999999999' is over 18446744073709.551615"
text "name,${whole}"'a,1,x,3\nb,9,2,3\n'
ends "every wrong line is told" 1 "sheet_tool: standard input: line 2: first: 'x' $decimal
sheet_tool: standard input: line 3: refusal 6: the kind is unknown: '9'" "$tool" pack < "$work/text.csv"

# 2,978 records of 22 bytes fit into a sheet; one more does not.
fills() {
    { echo name,kind,first,density; seq 1000 3977 | sed 's/$/,1,1,1/'; } > "$work/text.csv"
    "$tool" pack < "$work/text.csv" > "$work/full.eas" && test "$(wc -c < "$work/full.eas")" -eq 65523
}
expect "the fullest sheet" fills
echo 3978,1,1,1 >> "$work/text.csv"
too_long="refusal 1: the sheet is, or would become, over 65,536 bytes"
ends "one state more" 1 "sheet_tool: standard input: line 2980: $too_long: the first 2978 of 2979 states fit; --split writes more than one sheet" \
    "$tool" pack < "$work/text.csv"

# With remarks every record has a byte more: 2,849 of 23 bytes, and a remark of 2.
fills_late() {
    { echo name,kind,first,density,remark; seq 1000 3847 | sed 's/$/,1,1,1,/'; echo "3848,1,1,1,xy"; } > "$work/text.csv"
    "$tool" pack < "$work/text.csv" > "$work/full.eas" && test "$(wc -c < "$work/full.eas")" -eq 65536 &&
        "$tool" unpack "$work/full.eas" | "$tool" pack | cmp - "$work/full.eas"
}
expect "the fullest sheet with a remark, in its last row" fills_late
sed '$s/$/z/' "$work/text.csv" > "$work/longer.csv"
ends "a byte more in its remark" 1 \
    "sheet_tool: standard input: line 2850: $too_long; this first remark makes each state a byte longer\
: the first 2848 of 2849 states fit; --split writes more than one sheet" \
    "$tool" pack < "$work/longer.csv"
sed -e '2s/$/x/' -e '$s/y$//' "$work/text.csv" > "$work/moved.csv"
expect "the fullest with two remarks" "$tool" pack -o "$work/full.eas" "$work/moved.csv"
sed '$s/$/z/' "$work/moved.csv" > "$work/longer.csv"
ends "a byte more in the last of two" 1 "sheet_tool: standard input: line 2850: $too_long: the first 2848 of 2849 states fit; --split writes more than one sheet" \
    "$tool" pack < "$work/longer.csv"
{ echo name,kind,first,density,remark; seq 1000 3977 | sed 's/$/,1,1,1,/'; } > "$work/text.csv"
ends "the fullest without remarks has no room for one" 1 \
    "sheet_tool: standard input: line 2979: $too_long; this first remark makes each state a byte longer\
: the first 2977 of 2978 states fit; --split writes more than one sheet" \
    sh -c "sed '\$s/\$/x/' '$work/text.csv' | '$tool' pack"
fills_by_remarks() {
    { echo name,kind,first,density,remark; seq 10 245 | sed "s/$/,1,1,1,$most/"; } > "$work/text.csv"
    "$tool" pack < "$work/text.csv" > "$work/full.eas" &&
        test "$(wc -c < "$work/full.eas")" -eq "$((7 + 90 * 276 + 146 * 277))" &&
        "$tool" unpack --si "$work/full.eas" | "$tool" pack | cmp - "$work/full.eas"
}
expect "the most remarks of 255 bytes" fills_by_remarks
echo "246,1,1,1,$most" >> "$work/text.csv"
ends "one state more with its remark" 1 "sheet_tool: standard input: line 238: $too_long: the first 236 of 237 states fit; --split writes more than one sheet" \
    "$tool" pack < "$work/text.csv"

# Sheets that are none.
sheet() {
    printf "$2" > "$work/wrong.eas"
    ends "$1" 1 "sheet_tool: $work/wrong.eas: $3" "$tool" unpack "$work/wrong.eas"
}
values='\0\0\0\0\0\0\0\001\0\0\0\0\0\0\0\001'
record='\001a\001'$values
sheet "an empty file is no sheet" '' "refusal 2: not a sheet: under 7 bytes, or it does not begin with EAS"
sheet "a text is no sheet" 'name,kind\n' "refusal 2: not a sheet: under 7 bytes, or it does not begin with EAS"
other_version="refusal 3: the sheet's version is not one that is read here"
for version in 0 3 257 512; do
    sheet "version $version" "EAS\\$(printf %03o $((version / 256)))\\$(printf %03o $((version % 256)))\\0\\0" \
        "$other_version: it is $version"
done
cut="refusal 4: bytes are missing from a record, or left over after the last"
sheet "a missing record" "EAS\\0\\001\\0\\002$record" "record 2: $cut"
sheet "bytes left over" "EAS\\0\\001\\0\\001${record}x" "after record 1: $cut"
sheet "an empty name" 'EAS\0\001\0\001\0\001\0\0\0\0\0\0\0\001\0\0\0\0\0\0\0\001' \
    "record 1: refusal 5: a record's name has no bytes or over 40"
sheet "a repeated name" "EAS\\0\\001\\0\\002$record$record" \
    "record 2: refusal 16: the name was seen earlier in the sheet"

# The same with remarks, one of three bytes behind the first record.
one='EAS\0\002\0\001' two='EAS\0\002\0\002' remark='\003xyz'
sheet "no length of a remark" "$one$record" "record 1: $cut"
sheet "a cut remark" "$two$record$remark"'\001b\001'"$values"'\003xy' "record 2: $cut"
sheet "a cut remark before an unknown kind" "$two$record$remark"'\001b\011'"$values"'\001' "record 2: $cut"
sheet "a cut remark before a repeated name" "$two$record$remark$record"'\001' "record 2: $cut"
sheet "a missing record behind a remark" "$two$record$remark" "record 2: $cut"
sheet "bytes left over behind a remark" "$one$record${remark}x" "after record 1: $cut"
sheet "a repeated name behind a remark" "$two$record$remark$record$remark" \
    "record 2: refusal 16: the name was seen earlier in the sheet"
sheet "an unknown kind behind a remark" "$two$record$remark"'\001b\011'"$values"'\0' \
    "record 2: refusal 6: the kind is unknown"
sheet "a long name behind a remark" "$two$record$remark"'\051' "record 2: refusal 5: a record's name has no bytes or over 40"
printf "$one$record"'\0' > "$work/wrong.eas"
as_version_1() {
    "$tool" unpack "$work/wrong.eas" | "$tool" pack > "$work/sheet.eas" && version 1
}
expect "a sheet of version 2 with empty remarks alone comes back as version 1" as_version_1

# Conversion. What is refused leaves an output as it was.
converts() {
    printf "$2" > "$work/from.eas" && printf "$3" > "$work/to.eas" && "$tool" "$1" "$work/from.eas" | cmp - "$work/to.eas"
}
first='EAS\0\001\0\003' second='EAS\0\002\0\003' b='\002b\001\002'"$values" c='\001c\003'"$values"
expect "forward" converts forward "$first$record$b$c" "$second$record"'\0'"$b"'\0'"$c"'\0'
expect "back" converts back "$second$record"'\0'"$b"'\0'"$c"'\0' "$first$record$b$c"
expect "forward without states" converts forward 'EAS\0\001\0\0' 'EAS\0\002\0\0'
expect "back without states" converts back 'EAS\0\002\0\0' 'EAS\0\001\0\0'
there_and_back() {
    "$tool" forward "$1" > "$work/two.eas" && "$tool" back "$work/two.eas" | cmp - "$1" &&
        test "$(od -An -t u1 -j 3 -N 2 "$work/two.eas" | tr -d ' \n')" = 02
}
back_and_forth() {
    "$tool" back < "$1" | "$tool" forward - | cmp - "$1"
}
one_text() {
    "$tool" unpack "$1" > "$work/text.csv" && "$tool" forward "$1" | "$tool" unpack | cmp - "$work/text.csv"
}
for sample in $(basename -s .eas samples/*.eas | grep -v with-remarks); do
    expect "$sample.eas goes forward and comes back" there_and_back samples/$sample.eas
    expect "$sample.eas goes back and comes forward" back_and_forth "$work/two.eas"
    expect "$sample.eas is the same text in both versions" one_text samples/$sample.eas
done
in_place() {
    cp samples/sample.eas "$work/sheet.eas" && "$tool" forward -o "$work/sheet.eas" "$work/sheet.eas" && version 2 &&
        "$tool" back -o "$work/sheet.eas" "$work/sheet.eas" && cmp "$work/sheet.eas" samples/sample.eas
}
expect "an input that is the output too" in_place
remarks_cleared() {
    "$tool" unpack --spelled samples/with-remarks.eas | cut -d , -f 1-4 | "$tool" pack > "$work/sheet.eas" && version 1 &&
        there_and_back "$work/sheet.eas"
}
expect "with its remarks cleared, the sample is of version 1" remarks_cleared

# stays WHAT WORDS MESSAGE: the sheet at hand is refused with this message, by a verb and what comes before the file.
echo kept > "$work/kept"
stays() {
    ends "$1" 1 "sheet_tool: $work/wrong.eas: $3" "$tool" $2 -o "$work/kept" "$work/wrong.eas"
    expect "$1: the output stays" test "$(cat "$work/kept")" = kept
}
# unread WHAT MESSAGE [SHEET]: so it is, or this one, by every verb that reads an accepted sheet.
unread() {
    test $# -lt 3 || printf "$3" > "$work/wrong.eas"
    for words in forward back "add x 1 1 1" list; do
        stays "$words: $1" "$words" "$2"
    done
}
no_sheet="refusal 2: not a sheet: under 7 bytes, or it does not begin with EAS"
seen="refusal 16: the name was seen earlier in the sheet"
unread "an empty file" "$no_sheet" ''
unread "a text" "$no_sheet" 'name,kind\n'
unread "a third version" "$other_version: it is 3" 'EAS\0\003\0\0'
unread "a missing record" "record 2: $cut" "EAS\\0\\001\\0\\002$record"
unread "a missing length of a remark" "record 2: $cut" "$two$record"'\0'"$c"
unread "a cut remark" "record 2: $cut" "$two$record"'\0'"$c"'\003xy'
unread "bytes left over" "after record 1: $cut" "$one$record"'\0x'
unread "a repeated name" "record 2: $seen" "$two$record"'\0'"$record"'\0'
unread "an unknown kind" "record 1: refusal 6: the kind is unknown" 'EAS\0\001\0\001\001b\004'"$values"
head -c 65537 /dev/zero > "$work/wrong.eas"
unread "a file over the limit" "$too_long"
cp samples/sample.eas "$work/wrong.eas"
stays "back from version 1" back "refusal 3: the sheet is of version 1 already, and nothing needs to be done"
cp samples/with-remarks.eas "$work/wrong.eas"
stays "forward from version 2" forward "refusal 3: the sheet is of version 2 already, and nothing needs to be done"

# told_remarks SHEET MESSAGE: the way back is refused with the first remark, and with what to do.
remark_refused="refusal 18: a state has a remark, which version 1 of the sheet does not hold"
told_remarks() {
    stays "back: $1" back "$1
sheet_tool: $work/wrong.eas: note: unpack it, clear the remarks and pack the text: that makes a sheet of version 1"
}
told_remarks "record 1: $remark_refused: 12 states have one, first 'shot%201412%2Freservoir'"
printf "$second$record"'\0'"$b"'\001x'"$c"'\0' > "$work/wrong.eas"
told_remarks "record 2: $remark_refused: 1 state has one, first 'b%01'"
ends "a remark in standard input" 1 "sheet_tool: standard input: record 2: $remark_refused: 1 state has one, first 'b%01'
sheet_tool: standard input: note: unpack it, clear the remarks and pack the text: that makes a sheet of version 1" \
    "$tool" back < "$work/wrong.eas"

# told_kinds WHAT SHEET STATES: the way back from a sheet of version 1 in version 2 ends with 0, writes the sheet and tells
# these states, or nothing, because copies before 2.2.0 do not know their kind.
told_kinds() {
    message="sheet_tool: $work/from.eas: note: a copy before 2.2.0 refuses the sheet with 6, because it does not know kind 3 \
(pressure wanted), which $3"
    test -n "$3" || message=
    "$tool" forward -o "$work/from.eas" "$2"
    ends "back: $1" 0 "$message" "$tool" back -o "$work/old.eas" "$work/from.eas"
    expect "back: $1: the sheet is written" cmp "$work/old.eas" "$2"
}
# kinds_3 NAMES: a sheet with a state of kind 3 for each spelled name, one a line, between two of other kinds.
kinds_3() {
    { printf 'spelled,kind,first,density\nx,1,1,1\n'; sed 's/$/,3,1,1/'; echo y,2,1,1; } | "$tool" pack -o "$work/three.eas" \
        2> "$work/summary"
}
told_kinds "no later kind" samples/sample.eas ''
echo a%2Fb%20%00 | kinds_3
told_kinds "a later kind" "$work/three.eas" "1 state has: 'a%2Fb%20%00'"
seq 5 | kinds_3
told_kinds "five states of a later kind" "$work/three.eas" "5 states have: '1', '2', '3', '4', '5'"
seq 6 | kinds_3
told_kinds "six" "$work/three.eas" "6 states have: '1', '2', '3', '4', '5' and 1 more"
seq 2800 | kinds_3
told_kinds "thousands" "$work/three.eas" "2800 states have: '1', '2', '3', '4', '5' and 2795 more"
long=$(printf '%039d' 0 | sed 's/0/%00/g')
printf "%s\n" "$long%01" "$long%02" "$long%03" "$long%04" "$long%05" "$long%06" | kinds_3
told_kinds "the longest names" "$work/three.eas" \
    "6 states have: '$long%01', '$long%02', '$long%03', '$long%04', '$long%05' and 1 more"
ends "forward tells no kinds" 0 '' "$tool" forward -o "$work/from.eas" "$work/three.eas"
ends "a full disk, and no note" 1 "sheet_tool: /dev/full: No space left on device" \
    "$tool" back -o /dev/full "$work/from.eas"

# 3,132 states are the most of version 2: 256 with names of a byte, the others with two. longest MORE [STATES]: so many
# states, where the last MORE have a byte more.
longest() {
    { echo spelled,kind,first,density; awk -v more="$1" -v states="${2:-3132}" 'BEGIN {
        for (i = 0; i < states; i++) {
            first = i < 256 ? "" : sprintf("%%%02X", i / 256)
            printf "%s%%%02X%s,1,1,1\n", first, i % 256, i < states - more ? "" : "x"
        } }'; } | "$tool" pack -o "$work/wrong.eas" 2> "$work/summary"
}
goes_forward() {
    longest "$1" && there_and_back "$work/wrong.eas" && test "$(wc -c < "$work/two.eas")" -eq "$2" &&
        back_and_forth "$work/two.eas"
}
expect "the most states of version 2" goes_forward 0 65523
expect "65,536 bytes in version 2" goes_forward 13 65536
would_have() {
    stays "$1" forward "refusal 1: in version 2 the sheet would have $2 bytes, one more for each of its $3 states, and \
65536 is the most"
}
longest 14
would_have "a byte more" 65537 3132
longest 0 3133
would_have "a state more" 65544 3133

# Adding. eight NUMBER: its eight bytes for printf, high byte first; -1 is the largest.
eight() {
    for shift in 56 48 40 32 24 16 8 0; do
        printf '\\%03o' $(($1 >> shift & 255))
    done
}
# adds WHAT SHEET WORDS SHEET: with the state of these words the sheet is that one.
adds() {
    printf "$2" > "$work/from.eas" && printf "$4" > "$work/to.eas"
    expect "adding $1" grows_to $3
}
grows_to() {
    "$tool" add "$@" "$work/from.eas" > "$work/grown.eas" && cmp "$work/grown.eas" "$work/to.eas"
}
bare='EAS\0\002\0\0' state='\001'$(eight 101330500000)$(eight 129200000000)'\0'
adds "to a sheet without states" "$bare" "n 1 101330.5 1.292" "$one"'\001n'"$state"
adds "behind remarks, which stay" "$two$record$remark$c$remark" "x%2fy 1 101330.5 1.292" \
    "$second$record$remark$c$remark"'\003x/y'"$state"
adds "with empty remarks before it" "$one$record"'\0' "n TEMPERATURE 1.013305e5 +1.292" "$two$record"'\0\001n'"$state"
adds "an entropy" "$bare" "n entropy 7840.841 .5" "$one"'\001n\002'$(eight 7840841)$(eight 50000000000)'\0'
adds "a pressure" "$bare" "n Pressure 1e9 1292" "$one"'\001n\003'$(eight 1000000000000)$(eight 129200000000000)'\0'
adds "a pressure by its number" "$bare" "n 3 0.001 0.00000000001" "$one"'\001n\003'$(eight 1)$(eight 1)'\0'
adds "nothing as values" "$bare" "n 1 0 0.000" "$one"'\001n\001'$(eight 0)$(eight 0)'\0'
adds "the largest values" "$bare" "n 1 18446744073709.551615 184467440.73709551615" \
    "$one"'\001n\001'$(eight -1)$(eight -1)'\0'
adds "a name of every sort of spelling" "$bare" "%41b~%7e-._%c3%BC%00%25 1 101330.5 1.292" \
    "$one"'\013Ab~~-._\303\274\0%%'"$state"
adds "a name that is another's in capitals" "$one$record"'\0' "A 1 101330.5 1.292" "$two$record"'\0\001A'"$state"
adds "a name that begins as an option" "$bare" "-- -o 1 101330.5 1.292" "$one"'\002-o'"$state"
adds "a name of digits" "$one"'\0011'"$state" "01 1 101330.5 1.292" "$two"'\0011'"$state"'\00201'"$state"
adds "a name of forty bytes" "$bare" "$forty 1 101330.5 1.292" "$one"'\050'$forty"$state"
adds "a name of forty percent forms" "$bare" "$(seq 40 | sed 's/.*/%5A/' | tr -d '\n') 1 101330.5 1.292" \
    "$one"'\050'$(printf '%040d' 0 | tr 0 Z)"$state"

# packed STATES: a text of that many states with a remark in the first.
packed() {
    { echo name,kind,first,density,remark; seq 1001 $((1000 + $1)) | sed -e 's/$/,2,7,9,/' -e '1s/$/x/'; } | "$tool" pack
}
counts() {
    packed "$1" > "$work/from.eas" && packed $(($1 + 1)) > "$work/to.eas" &&
        grows_to $((1001 + $1)) 2 0.007 0.00000000009
}
for states in 1 254 255 256 511 2500; do
    expect "a state more than $states" counts $states
done
# The text of a sheet with a row more, packed, is the sheet with that state added, which goes back as any other.
as_packed() {
    { "$tool" unpack --spelled "$1" | cut -d , -f 1-4; echo n%2F1,1,101330500000,129200000000; } | "$tool" pack \
        > "$work/packed.eas" && "$tool" forward "$work/packed.eas" > "$work/to.eas" &&
        "$tool" forward "$1" > "$work/from.eas" && grows_to n%2f1 temperature 101330.5 1.292 &&
        "$tool" back "$work/grown.eas" | cmp - "$work/packed.eas"
}
for sample in $(basename -s .eas samples/*.eas | grep -v with-remarks); do
    expect "$sample.eas with a state more is as packed" as_packed samples/$sample.eas
done
remarks_stay() {
    "$tool" unpack samples/with-remarks.eas > "$work/before" &&
        "$tool" add new 2 78408.4 1.292 samples/with-remarks.eas | "$tool" unpack > "$work/after" &&
        head -n -1 "$work/after" | cmp - "$work/before" &&
        tail -n 1 "$work/after" | grep '^new,.*2,78408400,129200000000,,$'
}
expect "a sheet with remarks keeps them" remarks_stay
by_pipe() {
    printf "$one$record"'\0' | "$tool" add b 1 1 1 | "$tool" add c%2Fd 2 1 1 - | "$tool" add -o "$work/piped.eas" e 3 1 1 &&
        "$tool" unpack --spelled "$work/piped.eas" | tail -n +2 > "$work/lines" &&
        printf 'a,1,1,1\nb,1,1000000,100000000000\nc%%2Fd,2,1000,100000000000\ne,3,1000,100000000000\n' | cmp - "$work/lines"
}
expect "standard input and output" by_pipe
added_in_place() {
    cp "$work/piped.eas" "$work/sheet.eas" && "$tool" add -o "$work/sheet.eas" f 1 1 1 "$work/sheet.eas" &&
        "$tool" add f 1 1 1 "$work/piped.eas" | cmp - "$work/sheet.eas"
}
expect "a sheet that grows in place" added_in_place

# What is not added. The sheet at hand has the names a and x/y.
printf "$two$record$remark"'\003x/y'"$state" > "$work/wrong.eas"
spelling="refusal 7: a byte or a percent form of the spelled name is wrong"
length="refusal 8: the name has no bytes or over 40"
for name in x/y a%2 a%zz % %% a%C3ü b:; do
    stays "adding the name $name" "add $name 1 1 1" "$spelling: '$name'; --name takes a name as it is"
done
ends "adding a name with a space" 1 "sheet_tool: $work/wrong.eas: $spelling: 'b c'; --name takes a name as it is" \
    "$tool" add -o "$work/kept" 'b c' 1 1 1 "$work/wrong.eas"
ends "adding no name" 1 "sheet_tool: $work/wrong.eas: $length: ''" "$tool" add -o "$work/kept" '' 1 1 1 "$work/wrong.eas"
stays "adding a name of 41 bytes" "add ${forty}x 1 1 1" "$length: '${forty}x'"
stays "a wrong spelling before its length" "add ${forty}x% 1 1 1" "$spelling: '${forty}x%'; --name takes a name as it is"
stays "adding a name that is there" "add a 1 1 1" "$seen, in record 1"
stays "adding a name that is there, spelled otherwise" "add %61 2 1 1" "$seen, in record 1"
stays "adding the last name again" "add x%2fy 3 1 1" "$seen, in record 2"
cp samples/sample.eas "$work/wrong.eas"
to_version_2="$other_version: it is 1; add --forward writes it in version 2, and so does: sheet_tool forward -o $work/wrong.eas \
$work/wrong.eas"
stays "adding to version 1" "add n 1 1 1" "$to_version_2"
stays "adding to version 1 before the name" "add hot% 1 1 1" "$to_version_2"
# untyped WHAT MESSAGE WORDS: what is typed is told, whatever the sheet.
untyped() {
    ends "adding $1" 1 "sheet_tool: $2" "$tool" add -o "$work/kept" $3 "$work/none.eas"
    expect "adding $1: the output stays" test "$(cat "$work/kept")" = kept
}
for kind in 0 4 257 4294967297 18446744073709551617 energy T 1.5; do
    untyped "a kind $kind" "kind: refusal 6: the kind is unknown: '$kind'" "n $kind 1 1"
done
untyped "a word as pressure" "pressure_Pa: 'x' $decimal" "n 1 x 1"
untyped "a word as density" "density_kg_m3: '1,2' $decimal" "n 1 1 1,2"
untyped "too fine an energy" "energy_J_kg: '1.0001' has more digits than the unit of 1e-3 J/kg holds" "n 2 1.0001 1"
untyped "too fine a density" "density_kg_m3: '1e-12' has more digits than the unit of 1e-11 kg/m³ holds" "n 3 1 1e-12"
untyped "too large a pressure" "pressure_Pa: '18446744073709.551616' is over 18446744073709.551615" \
    "n 1 18446744073709.551616 1"
ends "a density that was forgotten" 1 "sheet_tool: density_kg_m3: 'samples/sample.eas' $decimal" \
    "$tool" add n 1 1 samples/sample.eas

# The fullest sheet: 3,129 states and a name of forty bytes, or 3,131 and one of two; a byte more is too much.
grows_full() {
    longest "$1" "$2" && "$tool" forward "$work/wrong.eas" > "$work/from.eas" && "$tool" add "$3" 1 1 1 "$work/from.eas" \
        > "$work/full.eas" && test "$(wc -c < "$work/full.eas")" -eq 65536 &&
        "$tool" unpack --spelled "$work/full.eas" | tail -n 1 | grep "^$3,1,1000000,100000000000\$"
}
overfull() {
    longest "$1" "$2" && "$tool" forward -o "$work/wrong.eas" "$work/wrong.eas" && stays "$3" "add $4 1 1 1" \
        "refusal 19: with one more state the sheet would be over 65,536 bytes: it would have $5"
}
expect "a name of forty bytes fills the sheet" grows_full 17 3129 $forty
overfull 18 3129 "a byte too much for a name of forty" $forty 65537
expect "a name of two bytes fills the sheet" grows_full 13 3131 zz
overfull 14 3131 "a byte too much for a name of two" zz 65537
overfull 13 3132 "adding to the fullest sheet" zz 65557
stays "a name that is there, before the sheet is full" "add %41 1 1 1" "$seen, in record 66"
stays "a wrong name, before the sheet is full" "add z% 1 1 1" "$spelling: 'z%'; --name takes a name as it is"

# Listing. lists SHEET LINES: the sheet at hand has this listing.
lists() {
    "$tool" list "$1" > "$work/lines" && printf "$2" | cmp - "$work/lines"
}
sample_lines='nose%%2Fcap%%201 T 0 0 273213936\n42 S 0 0 61182203\nhot ! 13\n'
expect "the listing of a sheet" lists samples/sample.eas "$sample_lines"
"$tool" forward -o "$work/two.eas" samples/sample.eas
expect "the listing of version 2" lists "$work/two.eas" "$sample_lines"
"$tool" add n%2f1 pressure 7840840 0.408566 "$work/two.eas" > "$work/three.eas"
expect "the listing with a state more" lists "$work/three.eas" "$sample_lines"'n%%2F1 P -500000 2000000 689731610396\n'
"$tool" add -o "$work/three.eas" '%FF%00' 1 0 1 "$work/two.eas"
expect "the listing with a state that is refused" lists "$work/three.eas" "$sample_lines"'%%FF%%00 ! 10\n'
printf "$bare" > "$work/bare.eas"
expect "the listing of no states" lists "$work/bare.eas" ''
lists_all() {
    "$tool" list -o "$work/lines" - < "$work/full.eas" && "$tool" unpack --spelled "$work/full.eas" | tail -n +2 |
        cut -d , -f 1 > "$work/names" && cut -d ' ' -f 1 "$work/lines" | cmp - "$work/names" &&
        test "$(wc -l < "$work/lines")" -eq 3132
}
expect "the listing of the fullest sheet" lists_all

# Files.
no_file='No such file or directory'
ends "a missing text" 1 "sheet_tool: $work/none.csv: $no_file" "$tool" pack "$work/none.csv"
ends "a missing sheet" 1 "sheet_tool: $work/none.eas: $no_file" "$tool" unpack "$work/none.eas"
ends "a folder as text" 1 "sheet_tool: $work: Is a directory" "$tool" pack "$work"
ends "a folder as sheet" 1 "sheet_tool: $work: Is a directory" "$tool" unpack "$work"
ends "a missing sheet to convert" 1 "sheet_tool: $work/none.eas: $no_file" "$tool" back "$work/none.eas"
ends "a full disk for a converted sheet" 1 "sheet_tool: /dev/full: No space left on device" \
    "$tool" forward -o /dev/full samples/sample.eas
ends "a missing sheet to add to" 1 "sheet_tool: $work/none.eas: $no_file" "$tool" add n 1 1 1 "$work/none.eas"
ends "a folder as sheet to add to" 1 "sheet_tool: $work: Is a directory" "$tool" add n 1 1 1 "$work"
ends "a full disk for a sheet that grew" 1 "sheet_tool: /dev/full: No space left on device" \
    "$tool" add -o /dev/full n 1 1 1 "$work/two.eas"
ends "a missing sheet to list" 1 "sheet_tool: $work/none.eas: $no_file" "$tool" list "$work/none.eas"
for sheet in samples/sample.eas "$work/full.eas"; do
    ends "a full disk for a listing" 1 "sheet_tool: /dev/full: No space left on device" "$tool" list -o /dev/full "$sheet"
done
ends "no such folder for the output" 1 "sheet_tool: $work/none/x.eas: $no_file" \
    "$tool" unpack -o "$work/none/x.eas" samples/sample.eas
ends "a folder as output" 1 "sheet_tool: $work: Is a directory" "$tool" unpack -o "$work" samples/sample.eas
ends "a full disk" 1 "sheet_tool: /dev/full: No space left on device" "$tool" unpack -o /dev/full samples/sample.eas
full_disk() {
    "$tool" pack samples/sample.csv > /dev/full 2> "$work/message"
    test $? -eq 1 && test "$(cat "$work/message")" = "sheet_tool: standard output: No space left on device"
}
expect "a full disk behind standard output" full_disk

# Options.
try="
Try 'sheet_tool --help'."
ends "no word" 2 "sheet_tool: pack, unpack, forward, back, add, list, table or eval must be said$try" "$tool"
for word in pakc forwards adds ad lists; do
    ends "a wrong word, $word" 2 "sheet_tool: '$word' is none of pack, unpack, forward, back, add, list, table and eval$try" "$tool" $word
done
ends "two files" 2 "sheet_tool: one file at a time: b is too much$try" "$tool" pack a b
ends "an unknown option" 2 "sheet_tool: unrecognized option '--sj'$try" "$tool" unpack --sj
ends "an option without its value" 2 "sheet_tool: option requires an argument -- 'o'$try" "$tool" unpack -o
for word in pack forward back add list; do
    ends "an option of another word, for $word" 2 "sheet_tool: --si and --spelled belong to unpack$try" "$tool" $word --si
done
ends "two files to convert" 2 "sheet_tool: one file at a time: b is too much$try" "$tool" forward a b
ends "two files to list" 2 "sheet_tool: one file at a time: b is too much$try" "$tool" list a b
ends "two files to add to" 2 "sheet_tool: one file at a time: b is too much$try" "$tool" add n 1 1 1 a b
for words in "" n "n 1" "n 1 1"; do
    ends "a state that is not whole: $words" 2 "sheet_tool: add takes a name, a kind, a first value and a density$try" \
        "$tool" add $words
done
ends "a negative value" 2 "sheet_tool: invalid option -- '1'$try" "$tool" add n 1 -1 1

# Round trips of the samples: as they are, in SI units, with names as text.
same() {
    "$tool" unpack $1 "$2" | "$tool" pack > "$work/again.eas" && cmp "$work/again.eas" "$2"
}
stored() {
    "$tool" pack "samples/$1.csv" | cmp - "samples/$1.eas"
}
for sample in $(basename -s .csv samples/*.csv); do
    expect "$sample.csv packs to the stored sheet" stored $sample
    for options in "" --si --spelled "--si --spelled"; do
        expect "$sample.eas comes back after unpack $options" same "$options" samples/$sample.eas
    done
done
odd='name,spelled,kind,first,density\n" x ",,1,1,1\n"a,b",,1,1,1\n"q""q",,2,1,1\n"#1",,1,1,1\n,%%00,1,1,1\n,a%%0Ab,2,1,1\n,%%FF,1,1,1\nD\303\274se,,1,1,1\n"a;b",,1,1,1\n'
text "$odd"
odd_names() {
    "$tool" pack "$work/text.csv" > "$work/odd.eas" && "$tool" unpack "$work/odd.eas" | cmp - "$work/text.csv" &&
        same "" "$work/odd.eas" && same --si "$work/odd.eas" && same --spelled "$work/odd.eas"
}
expect "odd names come back, those that are no text spelled" odd_names
finish sheet_tool
