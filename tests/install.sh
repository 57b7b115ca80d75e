#!/usr/bin/env bash
# Runs `install` into a folder of its own: what it puts where, that the pages name each option, and what it says where a program is
# missing. Behind the gate, which builds the programs; by hand after `rt run` in crates/bpfmap and crates/mapd.
set -euo pipefail
cd "$(dirname "$0")/.."
# shellcheck source=tests/common.sh
. tests/common.sh
: > "$work/in"

# Runs the script of this folder.
put() {
    got=0
    PREFIX=$2 DESTDIR=$3 "$1/install" > "$work/out" 2> "$work/err" || got=$?
}

# Whether the page names each option that the words' help has.
names_options() {
    local page=$1 option
    shift
    run "$@" --help
    grep -Eo -- '--[a-z-]+' "$work/out" | sort -u > "$work/options"
    [ -s "$work/options" ] || return 1
    while read -r option; do
        grep -Fq -- "Fl Fl ${option#--}" "$page" || { echo "$page does not name $option"; return 1; }
    done < "$work/options"
}

# Whether the program tells this version.
is_version() {
    run --version
    [ "$got" = 0 ] && [ "$(cat "$work/out")" = "$1" ]
}

# Whether the page is shown without a warning.
is_shown() {
    LC_ALL=C man -l --warnings "$1" > "$work/page" 2> "$work/err" && [ -s "$work/page" ] && [ ! -s "$work/err" ]
}

wanted="bin/bpfmap lib/systemd/system/mapd.service sbin/mapd share/man/man1/bpfmap.1 share/man/man8/mapd.8 "
put . /usr "$work/root"
judge "it ends well" [ "$got" = 0 ]
judge "what it puts" [ "$(cd "$work/root/usr" && find . -type f | sed 's#^\./##' | LC_ALL=C sort | tr '\n' ' ')" = "$wanted" ]
program=$work/root/usr/bin/bpfmap judge "the program can be run" is_version "bpfmap 0.1.0"
program=$work/root/usr/sbin/mapd judge "the server can be run" is_version "mapd 0.1.0"
judge "the unit starts the server there" grep -q '^ExecStart=/usr/sbin/mapd --listen ' "$work/root/usr/lib/systemd/system/mapd.service"

mkdir -p "$work/bare"
cp -r install docs "$work/bare"
put "$work/bare" /usr "$work/none"
judge "nothing is built" [ "$got" = 1 ]
judge "each missing program is named" [ "$(grep -c 'is missing' "$work/err")" = 2 ]
judge "nothing is put" [ ! -e "$work/none" ]

for command in asm disasm check run exec; do
    judge "bpfmap(1) names the options of $command" names_options docs/man/bpfmap.1 "$command"
done
program=crates/mapd/out/mapd judge "mapd(8) names its options" names_options docs/man/mapd.8
if command -v man > /dev/null; then
    judge "bpfmap(1) is shown" is_shown docs/man/bpfmap.1
    judge "mapd(8) is shown" is_shown docs/man/mapd.8
fi

echo "install: $passed passed, $failed failed"
[ "$failed" = 0 ]
