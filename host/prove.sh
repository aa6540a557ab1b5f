#!/bin/sh
# prove.sh CRATE: proves a crate and those below it with rt and builds it, a program to target/bin or a static library to
# target/staticlib. Shows each crate that is not as it was when last proved, as it goes: which of how many, its name, how
# long it took. Where one is not proved, the reason and the log's path follow, and the exit status is 1.
command -v rt > /dev/null || {
    echo "rt, the Rattle kit's command that proves and builds the library, is not on the path (see README.md)" >&2
    exit 2
}
root=$(cd "$(dirname "$0")/.." && pwd) || exit 2
cd "$root" || exit 2
crate=$1
log=target/log/$crate.out
mkdir -p target/log target/bin target/staticlib || exit 2

# The crate's number among those below it, each after those it depends on, as rt takes them; the widest name; how many.
plan=$(awk -v crate="$crate" '
    function visit(n,    part, i, k) {
        if (n in seen) return
        seen[n] = 1
        k = split(needs[n], part, /[ ,\t]+/)
        for (i = 1; i <= k; i++) if (part[i] in needs) visit(part[i])
        print n
    }
    {
        sub(/#.*/, "")
        i = index($0, ":")
        if (!i) next
        split(substr($0, 1, i - 1), word, " ")
        needs[word[1]] = substr($0, i + 1)
    }
    END {
        if (!(crate in needs)) {
            print "crates.txt has no crate " crate > "/dev/stderr"
            exit 1
        }
        visit(crate)
    }' crates.txt) || exit 1
total=$(printf '%s\n' "$plan" | wc -l)
widest=$(printf '%s\n' "$plan" | awk 'length > most { most = length } END { print most }')
# A program is built where it is run, here on no input; what it says is not looked at.
if test -f "crates/$crate/src/main.rt"; then
    kind=program
else
    kind=library
fi

echo "proving $total crates; unchanged ones are not proved again"
{
    cd "crates/$crate" || exit 2
    if test $kind = program; then
        rt run 2>&1 > /dev/null < /dev/null
    else
        rt lib 2>&1 < /dev/null
    fi
    echo "status $?"
} | {
    exec 3> "$log"
    begun= last= notes= reason= runs= status=
    # told WORDS: ends the line of the crate that was begun.
    told() {
        test -z "$begun" || echo "$1 ($(($(date +%s) - since)) s)"
        begun=
    }
    while IFS= read -r line; do
        printf '%s\n' "$line" >&3
        case $line in
        "rt: chose --jobs "*" for "*)
            told proved
            begun=${line##* }
            since=$(date +%s)
            number=$(printf '%s\n' "$plan" | grep -nx "$begun" | cut -d: -f1)
            printf "%2s of %d  %-${widest}s  " "$number" "$total" "$begun"
            last=$begun
            ;;
        "logic=proved "*)
            told proved
            ;;
        "logic=not-proved"*)
            told "NOT PROVED"
            ;;
        "rt: running "*)
            runs=yes
            ;;
        "status "*)
            status=${line#status }
            ;;
        *": error"*)
            test -n "$reason" || reason=${line#"$root/"}
            ;;
        "rt: "*)
            notes="$notes$line
"
            ;;
        esac
    done
    case $kind$runs$status in
    programyes*)
        cp -u "crates/$crate/out/$crate" target/bin/ && exit 0
        ;;
    library0)
        test ! -f "crates/$crate/out/lib$crate.a" || cp -u "crates/$crate/out/lib$crate.a" target/staticlib/ && exit 0
        ;;
    esac
    told "NOT PROVED"
    last=${last:-$crate}
    case $reason in
    ./* | src/* | specs/* | proofs/*) reason=crates/$last/${reason#./} ;;
    esac
    if test -n "$reason"; then
        echo "$last is not proved: $(printf '%.400s' "$reason" | iconv -c -f UTF-8 -t UTF-8)"
    else
        printf '%s' "$notes"
    fi
    echo "the whole log: $log"
    exit 1
}
