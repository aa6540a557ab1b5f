#!/bin/sh
# texts_test.sh BUILD: the texts that instruments and spreadsheets write, as sheet_tool packs and evaluates them: units,
# decimal commas, numbers to be rounded, headings that are nearly right, long texts; and what is told of them.
cd "$(dirname "$0")/.." || exit 1
. tests/check.sh
tool=$1/sheet_tool
test -x "$tool" || { skip "sheet_tool was not built"; finish texts; }

# text FORMAT: the text at hand, as printf writes it.
text() {
    printf "$1" > "$work/text.csv"
}

# packed LINES [OPTION...], packs WHAT TEXT LINES [OPTION...]: the text is packed, and unpacked it has these lines below the heading.
packed() {
    lines=$1
    shift
    "$tool" pack "$@" -o "$work/sheet.eas" "$work/text.csv" && "$tool" unpack --spelled "$work/sheet.eas" > "$work/back" &&
        tail -n +2 "$work/back" > "$work/lines" && printf "$lines" | cmp - "$work/lines"
}
packs() {
    what=$1
    text "$2"
    lines=$3
    shift 3
    expect "$what" packed "$lines" "$@"
}

# wrong WHAT TEXT MESSAGE: the text is refused with this message and nothing is written.
wrong() {
    text "$2"
    ends "$1" 1 "sheet_tool: $work/text.csv: $3" "$tool" pack "$work/text.csv"
}

# says WHAT TEXT MESSAGE [OPTION...]: the text is packed with this message.
says() {
    what=$1 message=$3
    text "$2"
    shift 3
    ends "$what" 0 "sheet_tool: $work/text.csv: $message" "$tool" pack "$@" -o "$work/sheet.eas" "$work/text.csv"
}

# Units. 101.33 kPa and 1.292 kg/m3 in the forms that a heading may have.
state='a,1,101330000000,129200000000\n'
packs "brackets" 'name,Pressure [kPa],density [g/cm3]\na,101.33,0.001292\n' "$state"
packs "parentheses and short words" 'name,p (bar),rho (g/l)\na,1.0133,1.292\n' "$state"
packs "underscores" 'name,pressure_hPa,density_kg_m3\na,1013.3,1.292\n' "$state"
packs "no space" 'name,P[mbar],RHO(kg/m^3)\na,1013.3,1.292\n' "$state"
packs "UTF-8" 'name,p [MPa],\317\201 [kg/m\302\263]\na,.10133,1.292\n' "$state"
packs "a litre in capitals" 'name,p [Pa],rho [g/L]\na,101330,1.292\n' "$state"
packs "energies" 'name,energy [MJ/kg],density_kg_m3\na,1.5,1\n' 'a,2,1500000000,100000000000\n'
packs "energies in kJ" 'name,kind,e (kJ/kg),rho_g_cm3\na,pressure,1.5,1e-3\n' 'a,3,1500000,100000000000\n'
packs "atmospheres" 'name,p (atm),density_kg_m3\na,2,1\n' 'a,1,202650000000,100000000000\n'
packs "760 Torr are an atmosphere" 'name,p (Torr),density_kg_m3\na,760,1\n' 'a,1,101325000000,100000000000\n'
packs "a psi, rounded" 'name,p (psi),density_kg_m3\na,1,1\n' 'a,1,6894757293,100000000000\n' --round
rows_of_units() {
    python3 tests/units.py "$tool" > "$work/count" && test "$(cat "$work/count")" -gt 2000
}
expect "thousands of numbers in every unit are exact" rows_of_units
found='no columns for a state: pressure_Pa with density_kg_m3, or energy_J_kg with density_kg_m3, or kind, first and density in
whole units; found:'
found=$(echo $found)
wrong "units in another case are no units" 'name,p [mpa],density_kg_m3\na,1,1\n' \
    "line 1: $found 'name', 'p [mpa]' (pressure_Pa?), 'density_kg_m3'"
wrong "a wrong letter" 'name,presure_Pa,density_kg_m3\na,1,1\n' \
    "line 1: $found 'name', 'presure_Pa' (pressure_Pa?), 'density_kg_m3'"
wrong "a unit that is near" 'name,pressure_kPA,density_kg_m3\na,1,1\n' \
    "line 1: $found 'name', 'pressure_kPA' (pressure_kPa?), 'density_kg_m3'"
wrong "an unknown unit" 'name,pressure [mmHg],density_kg_m3\na,1,1\n' \
    "line 1: $found 'name', 'pressure [mmHg]' (pressure_Pa?), 'density_kg_m3'"
wrong "no unit" 'name,pressure,density\na,1,1\n' \
    "line 1: $found 'name', 'pressure' (pressure_Pa?), 'density'"
wrong "nothing near" 'name,gauge\na,1\n' "line 1: $found 'name', 'gauge'"
wrong "a plain density" 'name,pressure_Pa,density\na,1,1\n' "line 1: the column 'density' has no unit: is it to be \
'density_kg_m3'? (whole units of 1e-11 kg/m³ stand in it only beside a column 'first')"
wrong "two pressures" 'name,p (bar),pressure_Pa,density_kg_m3\na,1,1,1\n' \
    "line 1: two columns have the pressure: 'pressure_Pa' is the second"
wrong "too large in its unit" 'name,p (bar),density_kg_m3\na,184467441,1\n' \
    "line 2: pressure in bar: '184467441' is over 18446744073709.551615 Pa"
says "a column that is nearly right" 'name,p (bar),density_kg_m3,remrk\na,1,1,x\n' "line 1: note: the column 'remrk' is not read; \
is it to be 'remark'?
sheet_tool: $work/text.csv: 1 state, 26 of 65,536 bytes used; none will be refused"

# Rounding.
si='name,pressure_Pa,density_kg_m3\n'
fine='has more digits than the unit of 1e-6 Pa holds; --round rounds to it'
wrong "too fine, told once" $si'a,1.0000001,1\nb,1,1\nc,2.0000001,1\nd,1,1e-12\n' "line 2: pressure_Pa: '1.0000001' $fine
sheet_tool: $work/text.csv: 2 more rows have such a number"
says "how many were rounded" $si'a,101329.99999999999,1.292\nb,101330.00000000001,1.2919999999999999\nc,101330,1.292\n' \
    "3 states, 64 of 65,536 bytes used, 3 numbers rounded; none will be refused" --round
packs "pandas" $si'a,101329.99999999999,1.292\nb,101330.00000000001,1.2919999999999999\n' \
    'a,1,101330000000,129200000000\nb,1,101330000000,129200000000\n' --round
packs "a half goes away from 0" $si'a,.0000005,0.000000000005\nb,.00000049999999999999999999999,1\nc,1.0000015,1\n' \
    'a,1,1,1\nb,1,0,100000000000\nc,1,1000002,100000000000\n' --round
packs "the most, rounded" $si'a,18446744073709.5516154,1e-99999\n' 'a,1,18446744073709551615,0\n' --round
text $si'a,18446744073709.5516155,1\n'
ends "over the most, rounded" 1 "sheet_tool: $work/text.csv: line 2: pressure_Pa: '18446744073709.5516155' is over \
18446744073709.551615" "$tool" pack --round "$work/text.csv"

# Decimal commas, sep=, comments.
packs "decimal commas" 'name;p (bar);density_kg_m3\na;1,0133;1,292\nb;1.0133;+1,292e0\n' \
    'a,1,101330000000,129200000000\nb,1,101330000000,129200000000\n'
packs "decimal commas with tabs" 'name\tp (bar)\tdensity_kg_m3\na\t1,0133\t1,292\n' "$state"
packs "sep=;" 'sep=;\r\nname;p (bar);density_kg_m3\r\na;1,0133;1,292\r\n' "$state"
packs "sep= and comments in front" '\357\273\277# export of today\n"sep=;"\n# x, y\nname;p, upper;p (bar);density_kg_m3\na;x;1,0133;1,292\n' \
    "$state"
packs "sep=, with semicolons in a name" 'sep=,\nname,p (bar),density_kg_m3\na;b,1.0133,1.292\n' 'a%%3B'"b,${state#a,}"
packs "comments below the heading, before numbers" 'p (bar),density_kg_m3,name\n1.0133,1.292,a\n# 1,1,b\n' "$state"
wrong "a comma for thousands" 'name;p (bar);density_kg_m3\na;1,013.3;1\n' \
    "line 2: pressure in bar: '1,013.3' is no decimal number from 0 up, with a point or a comma before its decimals"

# Many errors, long rows.
{ echo name,kind,first,density; yes a,9,1,1 | head -n 1000; } > "$work/text.csv"
twenty() {
    "$tool" pack "$work/text.csv" > "$work/out" 2> "$work/told"
    test $? -eq 1 && test ! -s "$work/out" && test "$(wc -l < "$work/told")" -eq 21 &&
        test "$(tail -n 1 "$work/told")" = "sheet_tool: $work/text.csv: 980 more rows are wrong"
}
expect "twenty wrong rows are told, and how many more" twenty
{ echo name,kind,first,density; seq 10 1009 | sed 's/$/%2F,1,101330000000,129200000000/'; } > "$work/text.csv"
noted() {
    "$tool" pack -o "$work/sheet.eas" "$work/text.csv" 2> "$work/told" && test "$(wc -l < "$work/told")" -eq 22 &&
        test "$(tail -n 2 "$work/told" | head -n 1)" = "sheet_tool: $work/text.csv: note: 980 more names look spelled"
}
expect "twenty names that look spelled are told, and how many more" noted
long="over 1000 fields or 1048576 bytes, or no memory"
for verb in pack eval; do
    { printf "$si"'"'; head -c 3000000 /dev/zero | tr '\0' x; } > "$work/text.csv"
    ends "$verb: a huge field" 1 "sheet_tool: $work/text.csv: line 2: $long" "$tool" $verb -o "$work/none" "$work/text.csv"
    { printf "$si"'a,1,"'; yes | head -n 1000000; } > "$work/text.csv"
    ends "$verb: a quote over many lines" 1 "sheet_tool: $work/text.csv: line 524287: $long" \
        "$tool" $verb -o "$work/none" "$work/text.csv"
    { printf "$si"; head -c 3000 /dev/zero | tr '\0' ,; } > "$work/text.csv"
    ends "$verb: many fields" 1 "sheet_tool: $work/text.csv: line 2: $long" "$tool" $verb -o "$work/none" "$work/text.csv"
    head -c 100000 /dev/zero > "$work/text.csv"
    expect "$verb: zero bytes alone are refused" sh -c "! '$tool' $verb -o '$work/none' '$work/text.csv'"
    expect "$verb: nothing was written" test ! -e "$work/none"
done

# What is told in the end, --split, --version-2.
says "what will be refused" $si'a,101330,1.292\nb,1.0133e7,0.1292\nc,1.0133e7,.13\nd,0,1\n' "4 states, 83 of 65,536 bytes used; \
3 will be refused: 1 with 10 (pressure outside 1e-6 to 1e11 Pa, or energy outside 7840.84 to 1e9 J/kg), 2 with 13 (the fitted \
temperature is outside 273.15 to about 24,900 K)"
{ printf "$si"; seq 10000 19999 | sed 's/$/,101330,1.292/'; } > "$work/text.csv"
ends "how many fit" 1 "sheet_tool: $work/text.csv: line 2851: refusal 1: the sheet is, or would become, over 65,536 bytes: the \
first 2849 of 10000 states fit; --split writes more than one sheet" "$tool" pack -o "$work/sheet.eas" "$work/text.csv"
ends "split" 0 "sheet_tool: $work/text.csv: 10000 states in 4 sheets, 33426 of 65,536 bytes used in the last; none will be refused" \
    "$tool" pack --split -o "$work/parts.eas" "$work/text.csv"
in_parts() {
    ls "$work" | grep parts
    for part in 1 2 3 4; do
        "$tool" unpack --spelled "$work/parts-$part.eas" | tail -n +2 | cut -d , -f 1
    done > "$work/names"
    seq 10000 19999 | cmp - "$work/names" && test ! -e "$work/parts.eas" && test ! -e "$work/parts-5.eas"
}
expect "the parts have every state once, in order" in_parts
text $si'a,101330,1.292\n'
mkdir "$work/one.day"
ends "a split that needs one sheet" 0 "sheet_tool: $work/text.csv: 1 state, 26 of 65,536 bytes used; none will be refused" \
    "$tool" pack --split -o "$work/one.day/lab" "$work/text.csv"
expect "its name has no ending to keep" test -s "$work/one.day/lab-1"
try="
Try 'sheet_tool --help'."
ends "a split needs a file" 2 "sheet_tool: --split needs -o FILE.eas, for the names of the sheets$try" \
    "$tool" pack --split "$work/text.csv"
expect "version 2 without remarks" sh -c "'$tool' pack --version-2 '$work/text.csv' > '$work/two.eas' && '$tool' back '$work/two.eas' \
    > '$work/one.eas' && '$tool' pack '$work/text.csv' | cmp - '$work/one.eas'"
expect "a state is added to it without a conversion" "$tool" add -o "$work/two.eas" b 1 1 1 "$work/two.eas"

# add: a name as it is, a remark, a conversion.
adds() {
    lines=$1
    shift
    "$tool" add -o "$work/grown.eas" "$@" && "$tool" unpack --si "$work/grown.eas" | tail -n 1 > "$work/lines" &&
        printf "$lines" | cmp - "$work/lines"
}
expect "a name as it is" adds 'nose/cap 9%%,1,101330,,1.292\n' --name='nose/cap 9%' temperature 101330 1.292 "$work/two.eas"
expect "a remark" adds 'x,2,,78408.4,1.292,"shot 9, late"\n' --remark='shot 9, late' x entropy 78408.4 1.292 "$work/two.eas"
expect "version 1 is converted where asked" adds 'x,3,,7840840,0.408566\n' --forward x pressure 7840840 0.408566 samples/sample.eas
expect "version 2 needs none" adds 'y,3,,7840840,0.408566\n' --forward y pressure 7840840 0.408566 "$work/two.eas"
ends "without --forward the command is told" 1 "sheet_tool: samples/sample.eas: refusal 3: the sheet's version is not one that is \
read here: it is 1; add --forward writes it in version 2, and so does: sheet_tool forward -o samples/sample.eas samples/sample.eas" \
    "$tool" add -o "$work/none" x 1 1 1 samples/sample.eas
ends "a long name as it is" 1 "sheet_tool: --name: refusal 8: the name has no bytes or over 40: '$(printf %041d 0)' has 41" \
    "$tool" add -o "$work/none" --name="$(printf %041d 0)" 1 1 1 "$work/two.eas"
ends "no name as it is" 1 "sheet_tool: --name: refusal 8: the name has no bytes or over 40: '' has 0" \
    "$tool" add -o "$work/none" --name= 1 1 1 "$work/two.eas"
ends "a long remark" 1 "sheet_tool: --remark: it has 256 bytes, and 255 is the most" \
    "$tool" add -o "$work/none" --remark="$(printf %0256d 0)" x 1 1 1 "$work/two.eas"
{ echo name,kind,first,density; seq 1000 3847 | sed 's/$/,1,1,1/'; } | "$tool" pack -2 -o "$work/full.eas" 2> "$work/said"
expect "the longest remark that fits" adds '3848,1,1,,1,xy\n' --remark=xy 3848 1 1 1 "$work/full.eas"
ends "a byte more" 1 "sheet_tool: $work/full.eas: refusal 19: with one more state the sheet would be over 65,536 bytes: it would \
have 65537" "$tool" add -o "$work/none" --remark=xyz 3848 1 1 1 "$work/full.eas"
ends "--name elsewhere" 2 "sheet_tool: --name, --remark and --forward belong to add$try" "$tool" list --name=x samples/sample.eas
expect "none of these wrote anything" test ! -e "$work/none"

# eval: one state.
prints() {
    what=$1
    printf "$2" > "$work/wanted"
    shift 2
    expect "$what" sh -c '"$@" | cmp - "$0/wanted"' "$work" "$@"
}
prints "a temperature" '273.213936 K\n' "$tool" eval temperature 101330 1.292
prints "an entropy" '6118.2203 J/(kg K)\n' "$tool" eval 2 78408.4 1.292
prints "a pressure" '689731.610396 Pa\n' "$tool" eval pressure 7840840 0.408566
ends "a refused state" 1 "sheet_tool: refusal 13: the fitted temperature is outside 273.15 to about 24,900 K" \
    "$tool" eval temperature 1.0133e7 0.1292
ends "no kind" 1 "sheet_tool: kind: refusal 6: the kind is unknown: 'heat'" "$tool" eval heat 1 1
ends "no number" 1 "sheet_tool: density_kg_m3: '1,2' is no decimal number from 0 up, with a point before its decimals" \
    "$tool" eval temperature 1 1,2
ends "two words" 2 "sheet_tool: eval takes a file, or a kind, a first value and a density$try" "$tool" eval temperature 1

# eval: a text.
evaluates() {
    text "$2"
    what=$1
    printf "$3" > "$work/wanted"
    shift 3
    expect "$what" sh -c '"$@" "$0/text.csv" | cmp - "$0/wanted"' "$work" "$tool" eval "$@"
}
answer=',answer,unit,refusal,reason\n'
evaluates "the same rows with answers" 'shot,gauge,pressure_Pa,density_kg_m3\n1,"a, b",101330,1.292\n2, x ,1.0133e7,0.1292\n' \
    "shot,gauge,pressure_Pa,density_kg_m3${answer}"'1,"a, b",101330,1.292,273.213936,K,,\n2," x ",1.0133e7,0.1292,,,13,"the fitted temperature is outside 273.15 to about 24,900 K"\n'
evaluates "the delimiter stays, and the comma" 'p (bar);density_kg_m3\n1;1\n1,0133;1,292\n2;2\n' \
    'p (bar);density_kg_m3;answer;unit;refusal;reason\n1;1;348.359228;K;;\n1,0133;1,292;273,213936;K;;\n2;2;348,359228;K;;\n'
evaluates "short rows" 'pressure_Pa,density_kg_m3,remark\n101330,1.292\n' \
    "pressure_Pa,density_kg_m3,remark${answer}101330,1.292,,273.213936,K,,\n"
evaluates "rounded" 'pressure_Pa,density_kg_m3\n101329.99999999999,1.292\n' \
    "pressure_Pa,density_kg_m3${answer}101329.99999999999,1.292,273.213936,K,,\n" --round
text 'pressure_Pa,density_kg_m3\nx,1\n101330,1.292\n'
unread() {
    "$tool" eval -o "$work/rows" "$work/text.csv" 2> "$work/told"
    test $? -eq 1 && cat "$work/told" "$work/rows" && test "$(tail -n +2 "$work/rows")" = "x,1,,,,\"pressure_Pa: 'x' is no decimal number from 0 up, with a point before its decimals\"
101330,1.292,273.213936,K,," && grep -q "line 2: pressure_Pa: 'x' is no" "$work/told"
}
expect "a row that cannot be read has its reason, and the status is 1" unread
text 'answer,pressure_Pa,density_kg_m3\n1,1,1\n'
ends "answers are there already" 1 "sheet_tool: $work/text.csv: line 1: there is a column 'answer' already" \
    "$tool" eval -o "$work/none" "$work/text.csv"
ends "no headings" 1 "sheet_tool: standard input: line 1: $found '101330', '1.292'" sh -c "echo 101330,1.292 | '$tool' eval -o '$work/none'"
ends "an empty text" 1 "sheet_tool: standard input: empty: a heading and states are wanted" \
    sh -c "'$tool' eval -o '$work/none' < /dev/null"
expect "nothing was written then" test ! -e "$work/none"

# eval gives what a table gives, for every sample.
as_table() {
    for sample in samples/*.eas; do
        "$tool" table -f csv "$sample" > "$work/table.csv"
        "$tool" unpack --si --spelled "$sample" | "$tool" eval > "$work/evaluated.csv" || return 1
        python3 - "$work/table.csv" "$work/evaluated.csv" << 'PYTHON' || return 1
import csv, sys
a, b = ([[r[k] for k in ("answer", "unit", "refusal", "reason")] for r in csv.DictReader(open(name, newline=""))] for name in sys.argv[1:])
sys.exit(a != b or not a)
PYTHON
    done
}
expect "eval and table agree" as_table

# A million rows in 20 MB of memory; the state of each is as in the first.
awk 'BEGIN { print "shot,pressure_Pa,density_kg_m3"; for (i = 0; i < 1000000; i++) print i ",101330,1.292" }' > "$work/million.csv"
million() {
    (ulimit -v 20000 && "$tool" eval -o "$work/answers.csv" "$work/million.csv") && test "$(wc -l < "$work/answers.csv")" -eq 1000001 &&
        test "$(grep -c ',273.213936,K,,$' "$work/answers.csv")" -eq 1000000
}
expect "a million rows" million
expect "progress is shown on a terminal alone" test ! -s "$work/said"
if command -v script > /dev/null; then
    expect "and there it is" sh -c "script -qc \"'$tool' eval -o '$work/answers.csv' '$work/million.csv'\" /dev/null | grep -q ' rows'"
fi
finish texts
