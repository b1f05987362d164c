#!/usr/bin/env bash
# A first look: builds the program once, without proving anything, and runs it on the samples. `show` prints the small cube's file. A
# scene of three columns, two rows and two bands is compressed, its file inspected, and expanded again; each output is compared, the
# file with the one that the standard's rules give, the scene with the one that was compressed. An extra check stops a bad access.
set -eu
top=$(cd "$(dirname "${BASH_SOURCE[0]}")/.." && pwd)
samples=$top/samples
if ! command -v rt > /dev/null; then
    echo "make try needs the toolchain: its command rt isn't in the PATH" >&2
    exit 1
fi
cases=$(mktemp -d)
trap 'rm -rf "$cases"' EXIT

# Adds a run of the program: its name, its input, what it has to print, and its arguments.
add() {
    cp "$2" "$cases/$1"
    cp "$3" "$cases/$1.stdout"
    printf '%s\n' "${@:4}" > "$cases/$1.args"
}

add 1-show "$samples/small.cube" "$samples/small.hex" show
add 2-compress "$samples/scene.raw" "$samples/scene.ccsds" compress \
    --columns 3 --rows=2 --bands 2 --bits 8 --bytes 1 --previous 1 --register 32 /dev/stdin /dev/stdout
add 3-inspect "$samples/scene.ccsds" "$samples/scene.inspect" inspect
add 4-expand "$samples/scene.ccsds" "$samples/scene.raw" expand --bytes 1 /dev/stdin /dev/stdout

cd "$top/crates/ccsds"
rt try --cases "$cases"
cat "$samples/small.hex"
echo "show, compress, inspect and expand print what they have to; nothing was proved: make show and make test do that"
