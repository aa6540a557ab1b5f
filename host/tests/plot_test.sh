#!/bin/sh
# plot_test.sh BUILD: what a lab looks for in a plot, and plot's messages.
cd "$(dirname "$0")/.." || exit 1
. tests/check.sh
plot=$1/plot
tool=$1/sheet_tool
if test ! -x "$plot" || test ! -x "$tool"; then
    skip "plot or sheet_tool was not built"
    finish plot
fi

# texts FILE.svg: every text of a drawing, a line each.
texts() {
    sed -n 's|.*<text[^>]*>\(.*\)</text>.*|\1|p' "$1" | sed -e 's/&lt;/</g' -e 's/&gt;/>/g' -e 's/&amp;/\&/g'
}

draws() {
    "$plot" "samples/$1.eas" "$work/$1.svg" "$work/$1.png" "$work/$1.pdf" && tail -n 1 "$work/$1.svg" | grep '^</svg>$' &&
        head -c 4 "$work/$1.png" | grep PNG && head -c 4 "$work/$1.pdf" | grep PDF
}

is_xml() {
    python3 -c 'import sys, xml.dom.minidom; xml.dom.minidom.parse(sys.argv[1])' "$1"
}

# Every name of the sheet stands in the drawing, as text or spelled.
names_all() {
    texts "$2" | sort -u > "$work/texts"
    { "$tool" unpack "$1" | cut -d , -f 1; "$tool" unpack --spelled "$1" | cut -d , -f 1 | sed 's/$/ (spelled)/'; } |
        sort -u > "$work/names"
    comm -12 "$work/names" "$work/texts" | wc -l > "$work/found"
    cat "$work/found"
    test "$(cat "$work/found")" -eq "$(($("$tool" unpack "$1" | wc -l) - 1))"
}

# shows FILE.svg TEXT
shows() {
    texts "$1" | grep -qxF "$2"
}

# lacks FILE.svg TEXT
lacks() {
    ! shows "$@"
}

# drawn_as FILE.svg NAME SHAPE: the mark's element, the line behind its title.
drawn_as() {
    grep -A 1 "<title>[0-9]*  $2: " "$1" | tail -n 1 | tee "$work/mark" | grep "^<$3" || { cat "$work/mark"; return 1; }
}
disc='circle .* fill="#' ring='circle .* fill="none"' diamond=polygon

# shades FILE.svg COUNT: how many strips are shaded, two of them in the bar on top.
shades() {
    test "$(grep -c 'polygon .*fill="#b8d4f7"' "$1")" -eq "$2"
}

for sample in $(basename -s .csv samples/*.csv); do
    expect "$sample is drawn" draws $sample
    expect "$sample: the drawing is XML" is_xml "$work/$sample.svg"
    expect "$sample: the strip at -4.5" shows "$work/$sample.svg" "join at -4.5 ± 0.025"
    expect "$sample: the strip at -0.5" shows "$work/$sample.svg" "join at -0.5 ± 0.005"
done

# Joins: where they are drawn and how they are called.
joins="joined between two bands (shaded strips)"
for name in "edge/low" "strip/T low 5" "strip/T high 1" "just inside/T 1" "strip/low 1" "strip/high 2"; do
    expect "$name is a join" drawn_as "$work/slash-and-space.svg" "$name" "$diamond"
done
for name in "strip edge/T 1" "strip edge/T 2" "strip edge/1" "strip edge/4"; do
    expect "$name is none" drawn_as "$work/slash-and-space.svg" "$name" "$disc"
done
expect "a perfect gas in a strip is no join" drawn_as "$work/slash-and-space.svg" "strip/cold low" "$ring"
expect "joined temperatures are explained" shows "$work/slash-and-space.svg" "temperature, $joins"
expect "joined entropies are explained" shows "$work/slash-and-space.svg" "entropy, $joins"
expect "where there is none it is not" lacks "$work/shock-tunnel.svg" "temperature, $joins"
expect "strips of both kinds" shades "$work/slash-and-space.svg" 6

# Pressures: a panel of their own, joined at every Z, with the answers' own values.
pressures=$work/energy-and-pressure.svg
for name in "lower-edge/below 1" "lower-edge/on 1" "lower-edge/above 7" "upper-edge/on 6" "upper-edge/limit"; do
    expect "$name is a join" drawn_as "$pressures" "$name" "$diamond"
done
for name in "low/constant" "low/minus 4" "lower-edge/thinner 1" "upper-edge/denser 6" "high/kept 2"; do
    expect "$name is none" drawn_as "$pressures" "$name" "$disc"
done
expect "joined pressures are explained" shows "$pressures" "pressure, $joins"
expect "no perfect gas among pressures" lacks "$pressures" "pressure, perfect gas (Z up to 0.25)"
expect "the panel's title" shows "$pressures" "Pressure, 126 states"
expect "the panel's unit" shows "$pressures" "pressure, Pa"
expect "a large pressure in the list" shows "$pressures" "7190121618"
expect "a pressure with six digits" shows "$pressures" "18398.6"
expect "a pressure below a pascal" sh -c "grep -q '<title>[0-9]*  thinnest: 0.038447 Pa, ' '$pressures'"
expect "a pressure in its mark's title" sh -c "grep -q '<title>[0-9]*  upper-edge/on 4: 689732 Pa, ' '$pressures'"
expect "what Z is for pressures" shows "$pressures" "log10 of p/p₀ over ρ/ρ₀, for entropy and pressure of e/e₀"
expect "a tick by its power of ten" shows "$pressures" "10⁹"
expect "every tick of that axis so" shows "$pressures" "10²"
expect "and every density" shows "$pressures" "1.29·10⁻²"
expect "no number in another style" sh -c "! sed -n 's/.*<text[^>]*>\(.*\)<.text>.*/\1/p' '$pressures' | grep -q -x -e '[0-9.]*e[+-][0-9]*' -e 1000000"
expect "strips of entropy and pressure" shades "$pressures" 6
expect "why a pressure has no point" sh -c "sed -n 's/.*<text[^>]*>\(.*\)<.text>.*/\1/p' '$pressures' | tr -d '\n' |
    grep -q 'refusal 17: energy outside what the pressure fits cover at this density'"
printf 'name,kind,energy_J_kg,density_kg_m3\na,pressure,78408.4,1e-6\nb,pressure,78408.4,2e-6\n' | "$tool" pack > "$work/thin.eas"
expect "pressures below a pascal alone are drawn" "$plot" "$work/thin.eas" "$work/thin.svg" "$work/thin.png"
expect "both have a mark with its value" test "$(grep -c 'title>[0-9]*  [ab]: 0.0[36][0-9]* Pa' "$work/thin.svg")" -eq 2
# Each of three pressures below a pascal stands at its own height, with its value in the list.
printf 'name,kind,energy_J_kg,density_kg_m3\na,pressure,78408.4,2.5e-7\nb,pressure,78408.4,5.76e-6\nc,pressure,100000,1.42e-5\n' |
    "$tool" pack > "$work/low.eas"
expect "three pressures below a pascal are drawn" "$plot" "$work/low.eas" "$work/low.svg"
for value in 0.007772 0.179072 0.563030; do
    expect "$value Pa in the list" shows "$work/low.svg" "$value"
done
heights() {
    test "$(sed -n '/^<g><title>/{n;s/.*cy="\([^"]*\)".*/\1/p;}' "$work/low.svg" | sort -un | wc -l)" -eq 3
}
expect "at three heights" heights
expect "with plain numbers on their axis" shows "$work/low.svg" "0.01"
expect "no coordinate is no number" sh -c "! grep -qi -e nan -e inf '$work/thin.svg' '$pressures'"
printf 'name,pressure_Pa,density_kg_m3\nwarm,36000,0.41\ncold,24000,0.405\n' | "$tool" pack > "$work/cold.eas"
"$plot" "$work/cold.eas" "$work/cold.svg"
expect "no strip among perfect gases alone" shades "$work/cold.svg" 2

# Steps of the fits: marked between neighbours of the sheet, and told in the legend.
# stepped NAME LINE...: draws a sheet of these states.
stepped() {
    name=$1
    shift
    { echo name,kind,first,density; printf '%s\n' "$@"; } | "$tool" pack > "$work/$name.eas" &&
        "$plot" "$work/$name.eas" "$work/$name.svg"
}
# links FILE.svg COUNT: how many lines mark a step, the one in the legend among them.
links() {
    test "$(grep -c 'polyline .*stroke="#8f45ad"' "$1")" -eq "$2"
}
below=a,1,18000000000,12920000000 above=b,1,18040000000,12920000000
expect "neighbours on both sides of the perfect gas's end are drawn" stepped one "$below" "$above"
expect "their step is marked" links "$work/one.svg" 2
expect "and the legend says how large it is" shows "$work/one.svg" "temperature between neighbours: 1, -1.05 %"
expect "steps across the curve" sh -c "grep -q '>temperature steps across it: -1.[0-9]* to -0.[0-9]* %<' '$work/one.svg'"
expect "two steps" stepped two "$below" "$above" c,1,89900000000,12920000000 d,1,91000000000,12920000000
expect "both are told" shows "$work/two.svg" "temperature between neighbours: 2, -1.05 to +0.71 %"
expect "both are marked" links "$work/two.svg" 3
expect "neighbours within a piece are drawn" stepped within "$above" c,1,18080000000,12920000000
expect "no step is marked there" links "$work/within.svg" 0
expect "states that are far apart are drawn" stepped far "$below" c,1,40000000000,12920000000
expect "and are no neighbours" links "$work/far.svg" 0
expect "steps of pressures" sh -c "grep -q '>pressure between neighbours: [0-9]*, -0.[0-9]* to +1.[0-9]* %<' '$pressures'"
expect "steps of entropies" sh -c "grep -q '>entropy steps across it: -2.[0-9]* to +1.[0-9]* %<' '$work/shock-tunnel.svg'"

# The stored pictures, each drawn by "plot samples/NAME.eas", have the marks of today; where labels stand depends on the
# fonts.
marks() {
    grep -E '^<(g><title>|circle|polygon)' "$1"
}
pictured() {
    marks "../docs/$1.svg" > "$work/stored"
    marks "$work/$1.svg" | cmp - "$work/stored"
}
for picture in slash-and-space shock-tunnel slow-expansion; do
    expect "docs/$picture.svg is what is drawn" pictured $picture
done

# docs/slow-expansion-before.svg was drawn with library 2.0.0, which joins no temperature: every joined state differs from
# it, and no other.
titles() {
    grep -o '<title>[^<]*' "$1" | sort
}
differ_where_joined() {
    titles ../docs/slow-expansion-before.svg > "$work/before"
    titles "$work/slow-expansion.svg" | comm -13 "$work/before" - > "$work/changed"
    grep -B 1 '^<polygon' "$work/slow-expansion.svg" | grep -o '<title>[^<]*' | sort > "$work/joined"
    test -s "$work/joined" && cmp "$work/changed" "$work/joined"
}
expect "a join changes the joined states alone" differ_where_joined

expect "every name of the slash-and-space lab" names_all samples/slash-and-space.eas "$work/slash-and-space.svg"
expect "every name of digits only" names_all samples/digits-only.eas "$work/digits-only.svg"
expect "a name with a slash and a space" shows "$work/sample.svg" "nose/cap 1"
expect "a state without a point is listed" shows "$work/sample.svg" "hot"
expect "its refusal in words" sh -c "sed -n 's/.*<text[^>]*>\(.*\)<.text>.*/\1/p' '$work/sample.svg' | tr -d '\n' |
    grep -q 'refusal 13: the fitted temperature is outside 273.15 to about 24,900 K'"

# The axes follow the data: a sheet of dense states has no tick at a thin one.
printf 'name,pressure_Pa,density_kg_m3\na,1e6,12.92\nb,2e6,129.2\n' | "$tool" pack > "$work/dense.eas"
"$plot" "$work/dense.eas" "$work/dense.svg"
expect "a tick at the dense end" shows "$work/dense.svg" "2.0"
expect "no tick far away" sh -c "! sed -n 's/.*<text[^>]*>\(.*\)<.text>.*/\1/p' '$work/dense.svg' | grep -x -- '-[34567].*'"

# 3,000 states: none is left out of the list, and the marks without a number are counted.
{
    echo name,kind,first,density
    seq 1 3000 | awk '{ printf "%d,1,%.0f,%.0f\n", $1, 5e10 + 3e7 * $1, 1e9 * (1 + $1 % 97) }'
} > "$work/many.csv"
expect "3,000 states are packed" "$tool" pack -o "$work/many.eas" "$work/many.csv"
expect "3,000 states are drawn" "$plot" "$work/many.eas" "$work/many.svg"
expect "each of 3,000 names" names_all "$work/many.eas" "$work/many.svg"
expect "the marks without a number are told" sh -c "grep -q 'marks stand too close for one' '$work/many.svg'"

# Remarks stand below their names, grey and smaller, in as many lines as they need; a legend says so.
remarked=$work/with-remarks.svg
remarks() {
    grep '<text .*font-size="9" fill="#737373"' "$1" > "$work/remarks.svg"
    texts "$work/remarks.svg"
}
told_apart() {
    remarks "$remarked" | grep -qxF "$1"
}
below_name() {
    texts "$remarked" | grep -A 4 -xF "$1" | tail -n 1 | grep -xF "$2"
}
expect "a remark" told_apart "shot 1412, driver helium"
expect "quotes in a remark" told_apart 'gauge says "ok", trace says no'
expect "a remark in UTF-8" told_apart "Düse 2; µ-switch late"
expect "a remark stands below its name" below_name "shot 1412/reservoir" "shot 1412, driver helium"
expect "a remark of a state without a point" told_apart "arc went out: do not use"
expect "a remark that is no text is spelled" sh -c "sed -n 's/.*<text[^>]*>\(.*\)<.text>.*/\1/p' '$remarked' | tr -d '\n' |
    grep -qF '%02K7%00%FF%1F%8B%20pitot%20rake%2C%20as%20its%20logger%20wrote%20it (spelled)'"
whole_remark() {
    "$tool" unpack samples/with-remarks.eas | sed -n 's/.*"\(second burst.*\)",/\1/p' > "$work/long"
    test "$(tr -d '\n' < "$work/long" | wc -c)" -eq 255 && remarks "$remarked" | tr -d '\n' | grep -qF "$(cat "$work/long")"
}
expect "a remark of 255 bytes is shown whole" whole_remark
expect "a mark's title has its remark" grep -q \
    '<title>1  shot 1412/reservoir: .*; shot 1412, driver helium</title>' "$remarked"
expect "remarks are explained" shows "$remarked" "in the list: the remark of the state above"
expect "where there is none they are not" lacks "$work/sample.svg" "in the list: the remark of the state above"
shapes() {
    grep -E '^<(circle|polygon|polyline)' "$1"
}
moves_no_mark() {
    "$tool" unpack --si samples/with-remarks.eas | sed 's/remark/unread/g' | "$tool" pack 2> "$work/notes" > "$work/bare.eas" &&
        "$plot" "$work/bare.eas" "$work/bare.svg" && shapes "$work/bare.svg" > "$work/bare" &&
        test -s "$work/bare" && shapes "$remarked" | cmp - "$work/bare" && ! remarks "$work/bare.svg" | grep driver
}
expect "a remark moves no mark" moves_no_mark

# The most remarks: none is left out, as text and spelled.
fullest() {
    {
        echo "name,kind,first,density,$1"
        seq 10 245 | awk -v remark="$2" '{ printf "%d,1,%.0f,1000000000,%s\n", $1, 1e10 + 1e8 * $1, remark }'
    } | "$tool" pack > "$work/fullest.eas" && "$plot" "$work/fullest.eas" "$work/fullest.svg" "$work/fullest.png"
}
counts() {
    test "$(remarks "$work/fullest.svg" | tr -cd "$1" | wc -c)" -eq $((236 * $2))
}
expect "236 remarks of 255 wide letters are drawn" fullest remark "$(printf '%0255d' 0 | tr 0 W)"
expect "each of their letters" counts W 255
expect "236 remarks of 255 bytes that are no text are drawn" fullest remark_spelled "$(printf '%0255d' 0 | sed 's/0/%FF/g')"
expect "each of their bytes" counts F 510
{
    echo name,kind,first,density,remark
    seq 1 2776 | awk '{ printf "%d,1,%.0f,%.0f,Q\n", $1, 5e10 + 3e7 * $1, 1e9 * (1 + $1 % 97) }'
} | "$tool" pack > "$work/many.eas"
expect "2,776 states with short remarks are drawn" "$plot" "$work/many.eas" "$work/many.svg"
expect "each of their remarks" test "$(remarks "$work/many.svg" | grep -cx Q)" -eq 2776
expect "each of their names" names_all "$work/many.eas" "$work/many.svg"
expect "none stands at the page's corner" sh -c "! grep -q 'y=\"0.0\"' '$work/many.svg' '$work/fullest.svg'"

# Some of the states: by letters of their names and by density, with their numbers in the sheet.
# chosen TITLE OPTION...: the drawing of the sample's pressures with these options has this title.
chosen() {
    says=$1
    shift
    "$plot" "$@" samples/energy-and-pressure.eas "$work/some.svg" && shows "$work/some.svg" "energy-and-pressure.eas: $says"
}
only() {
    texts "$work/some.svg" | grep -q '^low/' && return 1
    shows "$work/some.svg" "upper-edge/on 4" && shows "$work/some.svg" 106
}
expect "all states" chosen "137 states, 9 of them without a point"
expect "states by letters of their names" chosen "33 of 137 states, 1 of them without a point" --match=upper-edge
expect "no other stands there" only
expect "states of densities" chosen "33 of 137 states, 1 of them without a point" --from=0.1 --to=1
expect "states by both" chosen "7 of 137 states" --match=/on --from=0.408566 --to=.408567
expect "no steps between states that are not neighbours" links "$work/some.svg" 0
expect "a density's ends belong to it" chosen "1 of 137 states" --match=densest --from=1292 --to=1292
ends "no state chosen" 1 "plot: samples/sample.eas: none of its 3 states is chosen" \
    "$plot" --match=nothing samples/sample.eas "$work/x.svg"
ends "no density" 2 "plot: --from=thin: no density in kg/m³
Try 'plot --help'." "$plot" --from=thin samples/sample.eas "$work/x.svg"
expect "nothing was drawn" test ! -e "$work/x.svg"

# Without a list: names stand at marks alone.
expect "a drawing without the list" "$plot" --no-list "$work/many.eas" "$work/bare.svg"
expect "what its numbers are" sh -c "grep -q '>numbers: places in the sheet; [0-9]* marks stand too close for one<' '$work/bare.svg'"
expect "no remark" test "$(remarks "$work/bare.svg" | grep -cx Q)" -eq 0
expect "its page is as high as the panels" sh -c "head -n 2 '$work/bare.svg' | grep -q 'width=\"1380\" height=\"858\"'"

# A PDF has one page of its own size, or pages of A4 where the list does not fit beside the panels.
# pages FILE.pdf: their sizes, a line each.
pages() {
    python3 - "$1" << 'PYTHON'
import re, sys, zlib
data = open(sys.argv[1], "rb").read()
parts = [data]
for stream in re.findall(rb"stream\r?\n(.*?)endstream", data, re.DOTALL):
    try:
        parts.append(zlib.decompressobj().decompress(stream))
    except zlib.error:
        pass
for part in parts:
    for page in re.finditer(rb"/Type /Page\b(?!s)", part):
        box = re.search(rb"/MediaBox \[ ([\d. ]+)\]", part[max(0, page.start() - 400):page.end() + 400])
        print(" ".join(str(round(float(x))) for x in box[1].split()))
PYTHON
}
has_pages() {
    pages "$1" > "$work/pages"
    cat "$work/pages"
    test "$(wc -l < "$work/pages")" -eq "$2" && test "$(sort -u "$work/pages")" = "$3"
}
expect "a PDF of many states is drawn" "$plot" "$work/many.eas" "$work/many.pdf"
expect "it has pages of A4" has_pages "$work/many.pdf" 18 "0 0 842 595"
expect "so has that of two quantities" has_pages "$work/slash-and-space.pdf" 3 "0 0 842 595"
expect "one of few states has one page" has_pages "$work/sample.pdf" 1 "0 0 1380 1190"

# A letter that no font has is an error with the package, for what has no fonts of its own.
printf '<?xml version="1.0"?><!DOCTYPE fontconfig SYSTEM "fonts.dtd"><fontconfig><dir>%s</dir><cachedir>%s</cachedir></fontconfig>' \
    "$work/no-fonts" "$work/font-cache" > "$work/fonts.conf"
for ending in png pdf; do
    ends "no font for a $ending" 1 "plot: $work/boxes.$ending: no font that is installed has the letter s (U+0073): install the Debian package fonts-dejavu-core" \
        env FONTCONFIG_FILE="$work/fonts.conf" "$plot" samples/sample.eas "$work/boxes.$ending"
done
expect "no boxes were drawn" test ! -e "$work/boxes.png" -a ! -e "$work/boxes.pdf"
expect "an SVG has the viewer's fonts" env FONTCONFIG_FILE="$work/fonts.conf" "$plot" samples/sample.eas "$work/boxes.svg"

# Names of every sort.
printf 'name,spelled,pressure_Pa,density_kg_m3\n"<a> & ""b""",,1e5,1\nD\303\274se 1,,1e5,2\n,%%FF,1e5,3\n,a%%00b,1e5,4\n,%%20,1e5,5\n' |
    "$tool" pack > "$work/odd.eas"
expect "odd names are drawn" "$plot" --title 'A & B <C>' "$work/odd.eas" "$work/odd.svg"
expect "the drawing of odd names is XML" is_xml "$work/odd.svg"
expect "marks of XML" shows "$work/odd.svg" '<a> & "b"'
expect "UTF-8" shows "$work/odd.svg" "Düse 1"
expect "no UTF-8" shows "$work/odd.svg" "%FF (spelled)"
expect "a zero byte" shows "$work/odd.svg" "a%00b (spelled)"
expect "a space alone" shows "$work/odd.svg" "%20 (spelled)"
expect "the title" shows "$work/odd.svg" "A & B <C>: 5 states"
printf 'EAS\0\001\0\0' > "$work/empty.eas"
expect "a sheet without states" "$plot" "$work/empty.eas" "$work/empty.svg" "$work/empty.png" "$work/empty.pdf"
expect "it says so" shows "$work/empty.svg" "no state has a point"

# Messages.
try="
Try 'plot --help'."
ends "no file" 2 "plot: a sheet and a file to draw must be given$try" "$plot"
ends "no drawing" 2 "plot: a sheet and a file to draw must be given$try" "$plot" samples/sample.eas
ends "an unknown ending" 2 "plot: x.gif: no ending .svg, .png or .pdf$try" "$plot" samples/sample.eas x.gif
ends "an unknown option" 2 "plot: unrecognized option '--size'$try" "$plot" --size
ends "a missing sheet" 1 "plot: $work/none.eas: No such file or directory" "$plot" "$work/none.eas" "$work/x.svg"
ends "a folder as sheet" 1 "plot: $work: Is a directory" "$plot" "$work" "$work/x.svg"
ends "a text as sheet" 1 \
    "plot: samples/sample.csv: refusal 2: not a sheet: under 7 bytes, or it does not begin with EAS" \
    "$plot" samples/sample.csv "$work/x.svg"
printf 'EAS\0\002\0\001\001a\001' > "$work/cut.eas"
ends "a cut sheet" 1 \
    "plot: $work/cut.eas: record 1: refusal 4: bytes are missing from a record, or left over after the last" \
    "$plot" "$work/cut.eas" "$work/x.svg"
for ending in svg png pdf; do
    ends "no folder for a $ending" 1 "plot: $work/none/x.$ending: No such file or directory" \
        "$plot" samples/sample.eas "$work/none/x.$ending"
    ln -s /dev/full "$work/full.$ending"
    ends "a full disk for a $ending" 1 "plot: $work/full.$ending: No space left on device" \
        "$plot" samples/sample.eas "$work/full.$ending"
done
finish plot
