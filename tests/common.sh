# What commands.sh, frames.sh, process.sh, server.sh and install.sh share, run at the top of the repository: the built program (bpfmap,
# unless $program names another), a folder that goes at the end, runs and the count of cases.
# shellcheck shell=bash
program=${program:-crates/bpfmap/out/bpfmap}
[ -x "$program" ] || { echo "$program is not built; run the gate first" >&2; exit 1; }
work=$(mktemp -d)
trap 'rm -rf "$work"' EXIT
passed=0
failed=0

# Says whether the case of this name holds.
judge() {
    local name=$1
    shift
    if "$@"; then
        passed=$((passed + 1))
    else
        failed=$((failed + 1))
        echo "FAILED: $name: status $got, output '$(cat "$work/out")', errors '$(cat "$work/err")'"
    fi
}

# Runs the program on the words; $input and $sink may name other streams.
run() {
    got=0
    : > "$work/out"
    "$program" "$@" < "${input:-$work/in}" > "${sink:-$work/out}" 2> "$work/err" || got=$?
}
