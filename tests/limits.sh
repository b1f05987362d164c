#!/usr/bin/env bash
# Checks the answers of the built program with little memory, few threads, full devices and files that may not grow, byte for byte.
#
#   tests/limits.sh [PROGRAM]
source "$(dirname "$0")/checks.sh" || exit 2

# ---- a missing body, whatever the sizes are: no memory is allocated for it

# Runs the program with 32 MB of memory and one second of processor time, and checks its status and its line on standard error.
run_small() {
    local name=$1 status=$2 line=$3
    shift 3
    (
        ulimit -v 32768 -t 1
        exec "$program" "$@" > stdout 2> stderr < /dev/null
    )
    check "$name" "$status" "$line" $?
}

for size in 0000 8000 0001; do
    for coding in 080002a09259008226 0c0002a09259000001; do
        header=00$size$size${size}110000$coding
        printf "$(printf %s "$header" | sed 's/../\\x&/g')" > cut
        run_small "no body after $header" 2 $'ccsds: 6 Truncated 152\n' expand cut out
    done
done

# ---- little memory: the command succeeds, or memory is refused and OUT is empty

# Runs the program in so many kilobytes, and checks that it succeeds or refuses for want of memory. Where the system can't load
# the program, nothing is checked.
in_little_memory() {
    local name=$1 kilobytes=$2 whole=$3 status line
    shift 3
    rm -f out
    (
        ulimit -v "$kilobytes"
        exec "$program" "$@" > stdout 2> stderr < /dev/null
    )
    status=$?
    if [ "$status" -eq 0 ]; then
        whole_runs=$((whole_runs + 1))
        same "$name in $kilobytes kB" out "$whole"
    elif [ "$status" -eq 139 ]; then
        # The stack isn't allocated: where it can't grow, the system ends the program, which has written nothing by then.
        ended_runs=$((ended_runs + 1))
        if [ -e out ]; then holds "$name in $kilobytes kB" out ''; fi
    elif [ "$status" -ne 127 ]; then
        refused_runs=$((refused_runs + 1))
        # Where there is no memory for the line, nothing is printed.
        if [ -s stderr ]; then line=$'ccsds: 12 WantOfMemory\n'; else line=''; fi
        check "$name in $kilobytes kB" 3 "$line" "$status"
        if [ -e out ]; then holds "$name in $kilobytes kB" out ''; fi
    fi
}

head -c 200000 "$program" > scene
words='--columns 100 --rows 100 --bands 10 --bits 16 --previous 2'
for coder in sample block; do
    run "a scene is compressed by $coder" 0 '' compress $words --coder $coder scene wanted
    for command in compress expand; do
        whole_runs=0
        refused_runs=0
        ended_runs=0
        for kilobytes in $(seq 2600 20 4600); do
            if [ "$command" = compress ]; then
                in_little_memory compress "$kilobytes" wanted compress $words --coder $coder scene out
            else
                in_little_memory expand "$kilobytes" scene expand wanted out
            fi
        done
        if [ "$whole_runs" -eq 0 ] || [ "$refused_runs" -eq 0 ]; then
            complain "$command by $coder: memory was always or never refused"
        fi
        if [ "$ended_runs" -gt 2 ]; then complain "$command by $coder: the system ended it $ended_runs times"; fi
    done
done

# ---- a thread that isn't started: those already started are joined, and OUT is empty

# Runs the program with memory for so many thread stacks, and checks its status and its line on standard error.
with_stacks() {
    local name=$1 stacks=$2 status=$3 line=$4
    shift 4
    (
        ulimit -S -s 65536 && ulimit -v $((32768 + 65536 * stacks)) || exit 126
        exec timeout 60 "$program" "$@" > stdout 2> stderr < /dev/null
    )
    check "$name" "$status" "$line" $?
}

refused=$'ccsds: 16 SpawnRefused\n'
run 'a scene is compressed' 0 '' compress $words scene wanted
for slots in 1 65536; do
    for stacks in 0 1 2; do
        for predictors in 1 2 3; do
            name="$predictors predictors with $slots slots, $stacks started"
            if [ "$predictors" -le "$stacks" ]; then
                with_stacks "$name" "$stacks" 0 '' compress $words --predictors $predictors --slots $slots scene out
                same "$name" out wanted
            else
                with_stacks "$name" "$stacks" 3 "$refused" compress $words --predictors $predictors --slots $slots scene out
                holds "$name" out ''
            fi
        done
    done
done

# ---- a file that may not grow

head -c 262144 /dev/zero > zeros
run 'zeros are compressed' 0 '' compress --columns 512 --rows 256 --bands 1 --bits 12 zeros coded
for kilobytes in 1 200; do
    size=$((1024 * kilobytes))
    (
        trap '' XFSZ
        ulimit -f $kilobytes
        exec "$program" expand coded out 2> stderr
    )
    check "a file that may not grow past $size bytes" 4 "ccsds: 19 Write $size"$'\n' $?
    head -c $size zeros > first
    same "a file that may not grow past $size bytes" first out
done
run 'zeros are expanded' 0 '' expand coded out
same 'zeros are expanded' zeros out

# ---- a device that fills up during a write

# Runs the program with a device of 64 KiB mounted on the folder `device`, in a namespace of its own, and copies what it wrote
# to device/out into the file `left`.
on_small_device() {
    unshare -rm bash -c '
        mount -t tmpfs -o size=64k none device && "$@" 2> stderr
        status=$?
        cp device/out left
        exit $status' - "$program" "$@"
}

# Checks that a run failed to write, and that it wrote the beginning of a file, as many bytes as its line says.
fills_up() {
    local name=$1 whole=$2 status=$3 size
    size=$(wc -c < left)
    check "$name" 4 "ccsds: 19 Write $size"$'\n' "$status"
    if [ "$size" -eq 0 ] || [ "$size" -ge "$(wc -c < "$whole")" ]; then
        complain "$name: it did not fill up in mid-write, but at byte $size"
    fi
    head -c "$size" "$whole" > first
    same "$name" first left
}

mkdir device
if unshare -rm mount -t tmpfs -o size=64k none device 2> /dev/null; then
    head -c 120000 /dev/urandom > raw # 40 columns, 50 rows, 30 bands of two bytes
    large='--columns 40 --rows 50 --bands 30 --bits 16'
    run 'a cube larger than the device' 0 '' compress $large raw coded
    on_small_device compress $large raw device/out
    fills_up 'a device that fills up' coded $?
    on_small_device expand coded device/out
    fills_up 'a device that fills up, expanded to' raw $?
else
    echo 'limits.sh: a device that fills up was not tried, since none can be mounted here'
fi

# ---- two files with the same inode number on two devices aren't one file

mkdir one other_one
if unshare -rm bash -c '
        mount -t tmpfs none one && mount -t tmpfs none other_one && cp first one/in && echo > other_one/out || exit 9
        [ "$(stat -c %i one/in)" = "$(stat -c %i other_one/out)" ] || exit 9' 2> /dev/null; then
    printf '\xc8\xc8' > first
    unshare -rm bash -c '
        mount -t tmpfs none one && mount -t tmpfs none other_one && cp first one/in && echo > other_one/out
        "$@" one/in other_one/out 2> stderr
        status=$?
        cp other_one/out left
        exit $status' - "$program" compress $two
    check 'files of one number' 0 '' $?
    holds 'files of one number' left "$file"
else
    echo 'limits.sh: files of one number were not tried, since there are none here'
fi

echo "limits.sh: $passed passed, $failed failed"
[ "$failed" -eq 0 ]
