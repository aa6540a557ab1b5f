#!/bin/sh
# packages.sh: installs those of the Debian packages that the build, its tests and the gate need and that are missing.
# The Rattle kit, which proves and builds the library, is none of them.
packages='git python3 gcc g++ make pkg-config clang libclang-rt-dev libgmp-dev libmpfr-dev libpango1.0-dev libcsv-dev
    fonts-dejavu-core man-db mandoc clang-format clang-tidy cppcheck'
command -v dpkg > /dev/null || {
    echo "dpkg is not here; Debian calls what is needed:" $packages >&2
    exit 1
}
missing=
for package in $packages; do
    dpkg -s "$package" > /dev/null 2>&1 || missing="$missing $package"
done
test -n "$missing" || exit 0
echo "installing$missing"
as_root=
if test "$(id -u)" -ne 0; then
    command -v sudo > /dev/null || {
        echo "only root may: apt-get install$missing" >&2
        exit 1
    }
    as_root=sudo
fi
install_missing() {
    $as_root env DEBIAN_FRONTEND=noninteractive apt-get install -y -q --no-install-recommends $missing > /dev/null
}
# The first try fails on a machine that has no list of packages yet.
install_missing 2> /dev/null && exit 0
$as_root apt-get update -q > /dev/null 2>&1
install_missing
