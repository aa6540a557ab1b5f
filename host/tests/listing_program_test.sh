#!/bin/sh
# listing_program_test.sh LISTING...: what no proof can say of the listing program: that its inputs come in whole and
# its lines go out whole, however they are read and taken, and what standard error is told. LISTING is its command.
inputs=$(realpath "$(dirname "$0")/listing_inputs.py")
. "$(dirname "$0")/check.sh"
listing=$(realpath "$1") || exit 1
shift
set -- "$listing" "$@"
mkdir "$work/folder" && cd "$work/folder" || exit 1

# tells [MESSAGE]: standard error had one line that begins so; without a message, nothing.
tells() {
    cat "$work/told"
    if test $# -eq 0; then
        test ! -s "$work/told"
    else
        test "$(wc -l < "$work/told")" -eq 1 && grep -q "^listing: $1: " "$work/told"
    fi
}

# lists EXPECTED COMMAND...: writes what the file has, and tells nothing.
lists() {
    expected=$1
    shift
    "$@" > "$work/listed" 2> "$work/told"
    cmp "$work/listed" "$expected" && tells
}

# says LINE MESSAGE COMMAND...: writes one line, or none where it is empty, and tells the message, where there is one.
says() {
    printf '%s' "$1" > "$work/line"
    message=$2
    shift 2
    "$@" > "$work/listed" 2> "$work/told"
    cmp "$work/listed" "$work/line" && tells ${message:+"$message"}
}

# fed HOW EXPECTED COMMAND...: as lists, with the list through a pipe.
fed() {
    how=$1
    shift
    python3 "$inputs" "$how" list | lists "$@"
}

# sheet_fed HOW EXPECTED COMMAND...: as lists, with the sheet through a pipe.
sheet_fed() {
    python3 "$inputs" "$1" sheet > sheet.eas &
    shift
    lists "$@" < list
    status=$?
    kill $! 2> /dev/null
    wait
    return $status
}

lost='the output could not be written, it is not whole'

# loses COMMAND...: where the output cannot be written, standard error is told.
loses() {
    "$@" < list > /dev/full 2> "$work/told" && tells "$lost" && "$@" < list >&- 2> "$work/told" && tells "$lost"
}

# stops_at BYTES COMMAND...: the first bytes of the listing are written, and standard error is told that some are lost.
stops_at() {
    most=$1
    shift
    python3 "$inputs" limit "$most" "$@" > "$work/listed" 2> "$work/told" < list
    head -c "$most" expected | cmp - "$work/listed" && tells "$lost"
}

line='
'
python3 "$inputs" sheet > sheet
python3 "$inputs" names > names
cp sheet sheet.eas
while read -r name; do
    echo "$name" | "$@"
done < names > lines
sizes="$(seq 11000 11039) $(seq 22000 22009)"
python3 "$inputs" mix 3000 65536 $sizes
expect "the sheet has 65,536 bytes" test "$(wc -c < sheet)" -eq 65536
for letter in T S P; do
    expect "many of its names have a value with $letter" test "$(grep -c " $letter " lines)" -gt 25
done

# the inputs
cp list.3000 list && cp expected.3000 expected
expect "names are listed from a file" lists expected "$@" < list
expect "names are listed from a pipe that gives single bytes" fed bytes expected "$@"
expect "names are listed from a pipe that pauses" fed pauses expected "$@"
rm sheet.eas && mkfifo sheet.eas
expect "a sheet is read from a pipe that gives single bytes" sheet_fed bytes expected "$@"
expect "a sheet is read from a pipe that pauses" sheet_fed pauses expected "$@"
rm sheet.eas

# the limits
printf x | cat sheet - > sheet.eas
expect "a file of 65,537 bytes is no sheet, though its first 65,536 are one" says "sheet ! 1$line" '' "$@" < list
cat sheet sheet sheet > sheet.eas
expect "a file of three sheets is none" says "sheet ! 1$line" '' "$@" < list
cp sheet sheet.eas
head -c 65536 /dev/zero | tr '\0' '\n' > newlines
yes '? ! 8' | head -n 65536 > refusals
expect "65,536 empty names are refused each" lists refusals "$@" < newlines
echo >> newlines
expect "a list of 65,537 bytes is refused" says "list ! 15$line" '' "$@" < newlines
cat newlines newlines newlines > list
expect "a list of 65,537 bytes and more is refused from a pipe that pauses" fed pauses "$work/line" "$@"
printf x > sheet.eas
expect "the sheet is refused before the list" says "sheet ! 2$line" '' "$@" < newlines
cp sheet sheet.eas

# the parts
cp list.65536 list && cp expected.65536 expected
expect "the listing of the longest list takes several parts" test "$(wc -c < expected)" -gt 262144
expect "its parts are the lines of its names" lists expected "$@" < list
expect "so they are where a write takes a part of its bytes" lists expected python3 "$inputs" halt "$@" < list
for most in 1000 65343 65344 65536 100000 200000; do
    expect "a listing that stops at $most bytes" stops_at $most "$@"
done
for bytes in $sizes; do
    expect "the parts of a list of $bytes bytes" lists "expected.$bytes" "$@" < "list.$bytes"
done

# what standard error is told
expect "lines that a full disk, or nobody, takes" loses "$@"
expect "no names" says '' '' "$@" < /dev/null
expect "a folder as standard input" says '' 'standard input: cannot be read' "$@" < .
expect "no standard input" says '' 'standard input: cannot be read' "$@" <&-
rm sheet.eas
expect "no sheet" says "sheet ! 2$line" 'sheet.eas: cannot be opened' "$@" < list
expect "no sheet and a list that is too long" says "sheet ! 2$line" 'sheet.eas: cannot be opened' "$@" < newlines
mkdir sheet.eas
expect "a folder as the sheet" says "sheet ! 2$line" 'sheet.eas: cannot be read' "$@" < list
rmdir sheet.eas
ln -s nowhere sheet.eas
expect "a link to nowhere as the sheet" says "sheet ! 2$line" 'sheet.eas: cannot be opened' "$@" < list
ln -sf sheet.eas sheet.eas
expect "a link to itself as the sheet" says "sheet ! 2$line" 'sheet.eas: cannot be opened' "$@" < list
rm sheet.eas
: > sheet.eas
expect "an empty sheet" says "sheet ! 2$line" '' "$@" < list
expect "a refusal that a full disk, or nobody, takes" loses "$@"

finish "listing program"
