# What the scripts beside this file share; they source it with their own arguments. It sets `program` to the first of these, or else to
# the program that `rt ci` and `rt run` build. It changes to a temporary folder, which is removed at the end, and defines the checks
# and the counts of those that passed and failed.
set -u
here=$(cd "$(dirname "${BASH_SOURCE[0]}")/.." && pwd)
program=$(realpath "${1:-$here/crates/ccsds/out/ccsds}") || exit 2
if [ ! -x "$program" ]; then
    echo "there is no program $program" >&2
    exit 2
fi
room=$(mktemp -d) || exit 2
trap 'rm -rf "$room"' EXIT
cd "$room" || exit 2

passed=0
failed=0

# Checks the status of a run, and what it printed on standard error.
check() {
    local name=$1 wanted_status=$2 wanted_line=$3 status=$4
    if [ "$status" -ne "$wanted_status" ]; then
        complain "$name: it ended with $status, and not $wanted_status"
    elif ! printf '%s' "$wanted_line" | cmp -s - stderr; then
        complain "$name: on standard error it said: $(cat stderr)"
    else
        passed=$((passed + 1))
    fi
}

complain() {
    echo "FAILED: $1"
    failed=$((failed + 1))
}

# Runs the program with the arguments after the first three, and checks its status and its line on standard error. It must not
# print anything on standard output.
run() {
    local name=$1 status=$2 line=$3
    shift 3
    timeout 60 "$program" "$@" > stdout 2> stderr < /dev/null
    check "$name" "$status" "$line" $?
    if [ -s stdout ]; then
        complain "$name: it printed on standard output"
    fi
}

# Checks that a file consists of the bytes that are given in hexadecimal.
holds() {
    local name=$1 file=$2 bytes=$3
    if [ -e "$file" ] && [ "$(od -An -v -tx1 "$file" | tr -d ' \n')" = "$bytes" ]; then
        passed=$((passed + 1))
    else
        complain "$name: $file does not hold $bytes"
    fi
}

same() {
    if cmp -s "$2" "$3"; then
        passed=$((passed + 1))
    else
        complain "$1: $2 and $3 differ"
    fi
}

usage=$'ccsds: 20 Usage\n'

# Two samples of 200, one row below the other: their file in hexadecimal, the options that describe them, and their raw bytes.
file=00000100020001110000080002a092590082269080
two='--columns 1 --rows=2 --bands 1 --bits 8 --bytes 1 --previous 0 --reduced --column-sums --register 32'
printf '\xc8\xc8' > raw
