# shellcheck shell=bash
# Rows of checks/program where something can't be written, or memory is wanting

# Output and slots that can't be written, memory that is wanting, and a number that is the last
fault_rows() {
    folder
    expect_full 'a run on a full device' 8 run system script folder
    expect_file 'a run on a full device' folder/slot0 learnt
    expect 'an image on a full device' 8 '' '' build system /dev/full
    expect_full 'a check on a full device' 8 check image
    expect_full 'a dump on a full device' 8 dump image
    folder learnt
    ln -s /dev/full folder/slot1
    prints 'a slot on a full device' 9 run system script folder <<END
context 1
$typed
round 1 disk fault 1
END
    expect_file 'a slot on a full device' folder/slot0 learnt
    folder
    ln -s /dev/null folder/slot0
    prints 'a slot that no sync reaches' 9 run system script folder <<END
context 1
$typed
round 1 disk fault 2
END
    truncate -s $((64 << 20)) long
    folder learnt shut
    under=(bash -c 'ulimit -v 60000; exec "$@"' _)
    expect 'no memory for the system' 10 'memory\n' '' run long script folder
    under=()
    expect_file 'no memory for the system' folder/slot0 learnt
    write_word spent -1 9318 0
    folder spent
    prints 'the last number' 11 run system script folder <<END
context 1
$typed
round 1 seq spent
END
    expect_file 'the last number' folder/slot0 spent
    expect_file 'the last number' folder/slot1 empty
    expect 'a round of its own on the last number' 0 'round 1 seq spent\n' '' run system round folder
    write_word changed -2 9318 0
    folder changed
    prints 'the last number but one' 0 run system script folder <<END
context 1
$typed
round 1 saved 3
END
    write_word changed -1 9319 1
    expect_file 'the last number but one' folder/slot1 changed
}

# A slot that may not grow to its new length: what is written of it stays shut, and the next run writes it whole.
growth_rows() {
    local place rows=
    for place in {0..59}; do
        bytes "e580$(printf '%02x' $((128 + place)))" && echo ' 1 ㄕˋ'
        rows+="1 0 \\xe5\\x80\\x$(printf '%02x' $((128 + place))) 8708\\n"
    done >sixty_rows
    expect 'build of 60 rows' 0 '' '' build sixty_rows sixty_image
    write_slot sixty 1 60 "$(od -An -v -tx1 sixty_image | tr -d ' \n')"
    folder empty sixty
    under=(bash -c 'trap "" XFSZ; ulimit -f 1; exec "$@"' _)
    prints 'a slot of at most 1024 bytes' 9 run system script folder <<END
context 1
$typed
round 1 disk fault 3
END
    under=()
    expect_file 'a slot of at most 1024 bytes' folder/slot1 sixty
    expect_dictionary 'a slot of at most 1024 bytes' "slot 1 number 1 life 60\\n$rows"
    prints 'the run after it' 0 run system script folder <<END
context 1
$typed
round 1 saved 3
END
    expect_dictionary 'the run after it' "slot 0 number 2 life 61\\n${rows}9318 60 測試 10268,8708\\n"
}

# Each call on the slots fails in turn: the reads of the opening, and the six calls of a round.
disk_rows() {
    local step held
    cc -O2 -shared -fPIC -o fail_disk.so "$top/checks/fail_disk.c" -ldl || bad=1
    printf 'round\nround\n' >round2
    refuse_by_disk 1
    refuse_by_disk 2
    for step in {1..6}; do
        folder
        under=(env "LD_PRELOAD=$work/fail_disk.so" "FAIL_DISK=$step")
        prints "call $step of a last round fails" 9 run system script folder <<END
context 1
$typed
round 1 disk fault $step
END
        # the sixth call is the sync of an open gate, which reads find open
        held='none\n'
        [ "$step" -ne 6 ] || held='slot 0 number 1 life 1\n9318 0 測試 10268,8708\n'
        expect_dictionary "call $step of a last round fails" "$held"
        folder
        prints "call $step fails, and a later round saves" 0 run system round2 folder <<END
round 1 disk fault $step
round 2 saved 0
END
        expect_dictionary "call $step fails, and a later round saves" 'slot 0 number 1 life 0\n'
        folder
        under=(env "LD_PRELOAD=$work/fail_disk.so" "FAIL_DISK=$((6 + step))")
        prints "call $step of a second round fails" 0 run system round2 folder <<END
round 1 saved 0
round 2 disk fault $step
round 3 saved 2
END
        expect_dictionary "call $step of a second round fails" 'slot 1 number 2 life 0\n'
        folder
        under=(env "LD_PRELOAD=$work/fail_disk.so" "FAIL_DISK=$step-")
        # the gate is surely shut once it was shut and synced, and not opened
        held=1
        case $step in 3 | 4) held=3 ;; esac
        prints "calls fail from the call $step on" 9 run system round2 folder <<END
round 1 disk fault $step
round 2 disk fault $held
round 3 disk fault $held
END
        under=()
        prints "the run after the calls that failed from $step on" 0 run system script folder <<END
context 1
$typed
round 1 saved 3
END
    done
}

# A read of the opening fails, and both slots stay.
refuse_by_disk() {
    under=(env "LD_PRELOAD=$work/fail_disk.so" "FAIL_DISK=$1")
    refuse "read $1 of the slots fails" 9 'disk\n' '' run system script folder
    under=()
}
