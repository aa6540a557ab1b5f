#!/bin/sh
# archive.sh CRATE: builds a static library over the libraries that rt ci has just proved in a clean clone and left beside
# their crates, and copies it to target/staticlib. rt lib, which prove.sh calls, does not take those for its own and would
# prove each crate once more. Here the kit's compiler proves CRATE alone, and makes nothing where it is not proved.
cd "$(dirname "$0")/.." || exit 2
crate=$1
kit=$(dirname "$(rt doc)") || exit 2
uses=$(sed -n "s/^$crate *staticlib *:\([^#]*\).*/\1/p" crates.txt)
set -- --extern "std=$kit/rlibs/std.rlib" -L "dependency=$kit/rlibs"
for name in $uses; do
    if test -d "crates/$name"; then
        set -- "$@" --extern "$name=../$name/out/rlib/$name.rlib"
    else
        set -- "$@" --extern "$name=$kit/rlibs/$name.rlib"
    fi
done
for rlib in crates/*/out/rlib; do
    set -- "$@" -L "dependency=../../$rlib"
done
mkdir -p target/log target/staticlib "crates/$crate/out" || exit 2
log=target/log/$crate.archive
(cd "crates/$crate" && "$kit/bin/rattle" build --crate-name "$crate" src/lib.rt --crate-type staticlib "$@" --links "$crate=" \
    --antt-project "$kit/rattle/logic/antt-project.json" --logic-built "$kit/logic_built" --jobs "$(nproc)" \
    --toolchain "$kit/toolchain" --backend llvm -o "out/lib$crate.a") > "$log" 2>&1 && grep '^logic=proved ' "$log" > /dev/null &&
    cp "crates/$crate/out/lib$crate.a" target/staticlib/ && exit 0
tail -n 20 "$log"
exit 1
