#!/usr/bin/env bash
# Makes the Debian package of the built programs in a copy of the repository, as `dpkg-buildpackage -b` does, unpacks it, and runs the
# programs in it. lintian looks at it, if it is installed. After the gate, which builds the programs; by hand after `rt run` in
# crates/bpfmap and crates/mapd.
set -euo pipefail
cd "$(dirname "$0")/.."
type -P dpkg-buildpackage > /dev/null || { echo "package: no dpkg-buildpackage here (Debian's package dpkg-dev), so no package was made"; exit 0; }
# shellcheck source=tests/common.sh
. tests/common.sh
copy=$work/package/makluzha
mkdir -p "$copy/crates/bpfmap/out" "$copy/crates/mapd/out"
cp -r debian docs install LICENSE-MIT "$copy"
cp crates/bpfmap/out/bpfmap "$copy/crates/bpfmap/out"
cp crates/mapd/out/mapd "$copy/crates/mapd/out"
: > "$work/in"

# Makes the package.
make_package() {
    got=0
    (cd "$copy" && dpkg-buildpackage -b -us -uc) > "$work/out" 2> "$work/err" || got=$?
    packages=("$work"/package/*.deb)
    [ "$got" = 0 ] && [ ${#packages[@]} = 1 ] && dpkg-deb -x "${packages[0]}" "$work/root"
}

# Whether the program tells this version.
is_version() {
    run --version
    [ "$got" = 0 ] && [ "$(cat "$work/out")" = "$1" ]
}

# Whether lintian finds no error.
is_clean() {
    got=0
    LC_ALL=C lintian --fail-on error --allow-root "${packages[0]}" > "$work/out" 2> "$work/err" || got=$?
    [ "$got" = 0 ]
}

wanted="lib/systemd/system/mapd.service usr/bin/bpfmap usr/sbin/mapd usr/share/doc/makluzha/changelog.gz usr/share/doc/makluzha/copyright \
usr/share/man/man1/bpfmap.1.gz usr/share/man/man8/mapd.8.gz "
judge "a package is made" make_package
judge "what is in it" [ "$(cd "$work/root" && find . -type f | sed 's#^\./##' | LC_ALL=C sort | tr '\n' ' ')" = "$wanted" ]
program=$work/root/usr/bin/bpfmap judge "the program can be run" is_version "bpfmap 0.1.0"
program=$work/root/usr/sbin/mapd judge "the server can be run" is_version "mapd 0.1.0"
judge "the unit starts the server there" grep -q '^ExecStart=/usr/sbin/mapd --listen ' "$work/root/lib/systemd/system/mapd.service"
if type -P lintian > /dev/null; then
    judge "lintian finds no error" is_clean
else
    echo "package: no lintian here, so it did not look at the package"
fi

echo "package: $passed passed, $failed failed"
[ "$failed" = 0 ]
