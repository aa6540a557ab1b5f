#!/bin/sh
# files_test.sh BUILD: what the tools write. Whatever fails leaves the old file and nothing beside it, readers never see a
# part of a file, and states that are added at once are all stored.
cd "$(dirname "$0")/.." || exit 1
. tests/check.sh
ulimit -c 0
build=$(realpath "$1")
tool=$build/sheet_tool
plot=$build/plot
if test ! -x "$tool" || test ! -x "$plot"; then
    skip "sheet_tool or plot was not built"
    finish files
fi

# The sheet of a lab, 60,980 bytes in version 2, the same in version 1, and its text.
{ echo name,kind,first,density; seq 1001 3651 | sed 's/$/,1,101330000000,129200000000/'; } > "$work/lab.csv"
"$tool" pack -o "$work/one.eas" "$work/lab.csv" && "$tool" forward -o "$work/two.eas" "$work/one.eas" || exit 1
small=$PWD/samples/sample.eas drawn=$PWD/samples/slash-and-space.eas

# begin: an empty folder to write in.
folder=$work/folder
begin() {
    rm -rf "$folder"
    mkdir "$folder"
}

# writes WHAT OUT: writes the output by one of the ways that there are.
ways='pack unpack forward back add list table eval plot.svg plot.png plot.pdf'
writes() {
    case $1 in
    pack | eval) "$tool" $1 -o "$2" "$work/lab.csv" ;;
    forward) "$tool" forward -o "$2" "$work/one.eas" ;;
    add) "$tool" add -o "$2" new 1 1 1 "$work/two.eas" ;;
    plot*) "$plot" "$drawn" "$2" ;;
    *) "$tool" "$1" -o "$2" "$work/two.eas" ;;
    esac
}

# out_of WAY: a file in the folder with the ending that plot goes by.
out_of() {
    echo "$folder/out.${1#plot.}"
}

# alone NAME...: the folder has these files and no other.
alone() {
    ls -A "$folder"
    test "$(echo $(ls -A "$folder"))" = "$*"
}

# refused REASON COMMAND...: ends with 1 and this reason alone.
refused() {
    reason=$1
    shift
    "$@" 2> "$work/message"
    status=$?
    cat "$work/message"
    test $status -eq 1 && test "$(wc -l < "$work/message")" -eq 1 && grep -q "$reason\$" "$work/message"
}

# kept REASON OUT COMMAND...: the command is refused, and the output keeps its bytes and stands alone.
kept() {
    reason=$1 out=$2
    shift 2
    cp -f "$out" "$work/before"
    refused "$reason" "$@" && cmp "$out" "$work/before" && alone "$(basename "$out")"
}

# same FILE FILE: but for the time that a PDF has.
same() {
    grep -av /CreationDate "$1" > "$work/first" && grep -av /CreationDate "$2" | cmp - "$work/first"
}

# Right outputs: what was there is replaced, with its mode; what was not has the umask's.
for way in $ways; do
    out=$(out_of $way)
    begin
    expect "$way writes a new file" writes $way "$out"
    cp "$out" "$work/right"
    echo old > "$out"
    chmod 640 "$out"
    expect "$way replaces a file" writes $way "$out"
    expect "$way: by the same bytes" same "$out" "$work/right"
    expect "$way: with its mode" test "$(stat -c %a "$out")" = 640
    expect "$way: and nothing beside it" alone "$(basename "$out")"
done
mode_of() {
    begin
    (umask "$1" && writes pack "$folder/new.eas") && test "$(stat -c %a "$folder/new.eas")" = "$2"
}
expect "a new file's mode by the umask" mode_of 022 644
expect "a new file's mode by another umask" mode_of 027 640
owner_stays() {
    begin
    echo old > "$folder/lab.eas"
    test "$(id -u)" -ne 0 || chown 65534:65534 "$folder/lab.eas" || return 1
    owner=$(stat -c %u:%g "$folder/lab.eas")
    writes pack "$folder/lab.eas" && test "$(stat -c %u:%g "$folder/lab.eas")" = "$owner"
}
expect "a file that is replaced keeps its owner" owner_stays

# Links, pipes, devices and standard output.
begin
mkdir "$folder/there"
echo old > "$folder/there/sheet.eas"
ln -s there/link.eas "$folder/link.eas"
ln -s ./sheet.eas "$folder/there/link.eas"
through_links() {
    writes pack "$folder/link.eas" && cmp "$folder/there/sheet.eas" "$work/one.eas" && test -L "$folder/link.eas" &&
        test -L "$folder/there/link.eas" && alone link.eas there && test "$(ls -A "$folder/there" | wc -l)" -eq 2
}
expect "a link's target is replaced" through_links
rm "$folder/there/sheet.eas"
expect "a link's target is made" through_links
ln "$folder/there/sheet.eas" "$folder/there/second.eas"
one_of_two() {
    writes forward "$folder/link.eas" && cmp "$folder/there/sheet.eas" "$work/two.eas" &&
        cmp "$folder/there/second.eas" "$work/one.eas"
}
expect "a second hard link keeps the old bytes" one_of_two
ln -sf link.eas "$folder/there/link.eas"
expect "links without an end" refused "Too many levels of symbolic links" writes pack "$folder/link.eas"
begin
ln -s /dev/full "$folder/full.eas"
expect "a device behind a link" refused "No space left on device" writes pack "$folder/full.eas"
expect "the link to the device stays" test -c "$folder/full.eas" -a -L "$folder/full.eas"
piped() {
    begin
    mkfifo "$folder/pipe.eas"
    timeout 60 cat "$folder/pipe.eas" > "$work/piped" &
    writes pack "$folder/pipe.eas" && wait $! && cmp "$work/piped" "$work/one.eas" && test -p "$folder/pipe.eas" &&
        alone pipe.eas
}
expect "a pipe" piped
between_lines() {
    begin
    { echo first; "$tool" list -o /dev/stdout "$small"; echo last; } > "$folder/text" &&
        { echo first; "$tool" list "$small"; echo last; } | cmp - "$folder/text" && alone text
}
expect "standard output by its name" between_lines

# bound COMMAND...: as a user whom the modes of files bind, which root is not.
bound() {
    if test "$(id -u)" -eq 0; then
        setpriv --bounding-set=-dac_override,-dac_read_search --inh-caps=-dac_override,-dac_read_search "$@"
    else
        "$@"
    fi
}
begin
cp "$work/two.eas" "$folder/lab.eas"
chmod 444 "$folder/lab.eas"
for input in "$work/two.eas" "$folder/lab.eas"; do
    expect "a file that may not be written" kept "lab.eas: Permission denied" "$folder/lab.eas" \
        bound "$tool" add -o "$folder/lab.eas" new 1 1 1 "$input"
done
chmod 644 "$folder/lab.eas"
chmod 555 "$folder"
for input in "$work/two.eas" "$folder/lab.eas"; do
    expect "a folder that may not be written" kept "lab.eas: no new file can be made beside it: Permission denied" \
        "$folder/lab.eas" bound "$tool" add -o "$folder/lab.eas" new 1 1 1 "$input"
done
expect "a new file there" refused "new.eas: Permission denied" bound "$tool" pack -o "$folder/new.eas" "$work/lab.csv"
chmod 755 "$folder"

# A limit on the size of files.
limited() {
    (ulimit -f 8 && writes "$@")
}
for way in $ways; do
    begin
    out=$(out_of $way)
    echo old > "$out"
    expect "$way: a limit on the size of files" kept "File too large" "$out" limited $way "$out"
done
begin
cp "$work/two.eas" "$folder/lab.eas"
grows_limited() {
    (ulimit -f 8 && "$tool" add -o "$folder/lab.eas" new 1 1 1 "$folder/lab.eas")
}
expect "a sheet that grows in place, beyond a limit" kept "File too large" "$folder/lab.eas" grows_limited
expect "a new file beyond a limit" refused "new.eas: File too large" limited pack "$folder/new.eas"
expect "nothing is left of it" alone lab.eas

# A file system of 68 KB, in which a second sheet finds no room; where none can be mounted, the device that is full.
cat > "$work/on-small-disk" << 'END'
mount -t tmpfs -o size=68k none "$1" && cp "$3" "$1/lab.eas" && cd "$1" || exit 3
"$2" add -o lab.eas new 1 1 1 lab.eas
test $? -eq 1 && cmp lab.eas "$3" && test "$(ls -A)" = lab.eas && "$2" list lab.eas > /dev/null
END
space=
for way in -m -rm; do
    test -n "$space" || ! unshare $way mount -t tmpfs -o size=68k none "$folder" 2> /dev/null || space=$way
done
kept_on_small_disk() {
    begin
    unshare "$space" sh "$work/on-small-disk" "$folder" "$tool" "$work/two.eas" 2> "$work/message" &&
        test "$(cat "$work/message")" = "sheet_tool: lab.eas: No space left on device"
}
if test -n "$space"; then
    expect "a full file system" kept_on_small_disk
else
    expect "a full device" refused "No space left on device" writes add /dev/full
fi

# A flush or a rename that fails, and an end between them. A shell's background programs ignore signals, and this test may
# be one.
between() {
    env --default-signal=HUP,INT,QUIT,TERM LD_PRELOAD="$build/between.so" "$@"
}
grows() {
    "$@" "$tool" add -o "$folder/lab.eas" new 1 1 1 "$folder/lab.eas"
}
begin
cp "$work/two.eas" "$folder/lab.eas"
for call in "flush file" rename lock; do
    expect "a failed $call" kept "Input/output error" "$folder/lab.eas" grows between FAIL="$call"
done
expect "another file needs no lock" between FAIL=lock "$tool" add -o "$work/grown.eas" new 1 1 1 "$folder/lab.eas"
# ended STATUS SIGNAL: the tool is ended in place of the rename, and the sheet stays.
ended() {
    (grows between STOP="$2")
    test $? -eq "$1" && cmp "$folder/lab.eas" "$work/two.eas" && "$tool" list "$folder/lab.eas" > "$work/listed" &&
        test "$(wc -l < "$work/listed")" -eq 2651
}
for signal in 1 2 3 15; do
    expect "signal $signal between write and rename" ended $((128 + signal)) $signal
    expect "signal $signal: nothing is left" alone lab.eas
done
expect "a kill between write and rename" ended 137 9
expect "a kill leaves the temporary file" sh -c "ls -A '$folder' | grep -c '^\.airstate-......\$' | grep -qx 1"
ignored() {
    grows between env --ignore-signal=HUP STOP=1 && "$tool" list "$folder/lab.eas" | grep '^new '
}
expect "a signal that is ignored stays so, and the state is added after all that" ignored
rm -f "$folder"/.airstate-*
cp "$work/two.eas" "$folder/lab.eas"
in_order() {
    grows between CALLS="$work/calls" && cat "$work/calls" && test "$(cat "$work/calls")" = "lock
flush file
rename
flush folder"
}
expect "a lock; the bytes go to the disk before the name, and then the name" in_order
cp "$work/two.eas" "$folder/lab.eas"
expect "a failed flush of the folder is told" refused "Input/output error" grows between FAIL="flush folder"
expect "the new sheet stands then" sh -c "'$tool' list '$folder/lab.eas' | grep -q '^new '"

# Adding while others read: no reader is refused, and none finds fewer states than before.
reads_on() {
    last=0 finished=
    until test -n "$finished"; do
        test ! -e "$work/finished" || finished=yes
        "$tool" list "$folder/lab.eas" > "$work/read-$1" 2> "$work/refused-$1" || return 1
        count=$(wc -l < "$work/read-$1")
        test "$count" -ge "$last" || return 1
        last=$count
    done
    test "$last" -eq 153
}
add_150() {
    for i in $(seq 150); do
        "$tool" add -o "$folder/lab.eas" "n$i" 1 101330 1.292 "$folder/lab.eas" || return 1
    done
}
begin
"$tool" forward -o "$folder/lab.eas" "$small"
readers=
for reader in 1 2; do
    reads_on $reader &
    readers="$readers $!"
done
expect "150 states are added beside readers" add_150
touch "$work/finished"
for reader in $readers; do
    expect "a reader beside 150 adds is never refused" wait "$reader"
done

# Adding at once, 50 times. One goes by a link to the sheet, one by another path.
rounds=50
begin
mkdir "$folder/there"
"$tool" forward -o "$folder/lab.eas" "$small"
ln -s ../lab.eas "$folder/there/link.eas"
add_8() {
    adders=
    for i in 1 2 3 4 5 6 7 8; do
        sheet=$folder/lab.eas other=$sheet
        test $i -ne 7 || sheet=$folder/there/link.eas
        test $i -ne 8 || other=$folder/there/../lab.eas
        "$tool" add -o "$sheet" "n$1-$i" 1 101330 1.292 "$other" &
        adders="$adders $!"
    done
    for adder in $adders; do
        wait "$adder" || return 1
    done
    "$tool" list "$folder/lab.eas" > "$work/listed" && test "$(wc -l < "$work/listed")" -eq $((3 + 8 * $1))
}
for round in $(seq $rounds); do
    expect "eight states added at once are all stored, round $round" add_8 "$round"
done
expect "nothing is left beside the sheet" alone lab.eas there
# held COMMAND...: while another program holds the sheet, the command waits, until it is ended, and changes nothing.
held() {
    cp -f "$folder/lab.eas" "$work/before"
    flock "$folder/lab.eas" timeout 1 "$@"
    test $? -eq 124 && cmp "$folder/lab.eas" "$work/before" && alone lab.eas there
}
expect "an add in place waits for the lock" held "$tool" add -o "$folder/lab.eas" x 1 1 1 "$folder/lab.eas"
expect "a conversion in place waits for the lock" held "$tool" back -o "$folder/lab.eas" "$folder/lab.eas"
expect "a reader does not" flock "$folder/lab.eas" "$tool" list "$folder/lab.eas"
from_standard_input() {
    flock "$folder/lab.eas" "$tool" add -o "$folder/lab.eas" x 1 1 1 < "$folder/lab.eas"
}
expect "an add to standard input's sheet does not" from_standard_input
expect "an add to another file does not" flock "$folder/lab.eas" \
    "$tool" add -o "$folder/new.eas" y 1 1 1 "$folder/lab.eas"
finish files
