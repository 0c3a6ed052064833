# shellcheck shell=bash
# The forms of a row of checks/program

wrong() {
    echo "$1" >&2
    bad=1
}

# One command line: its name, the status, what it prints and what it says on standard error, both in the form of `printf %b`.
expect() {
    local name=$1 status=$2 out=$3 err=$4 now
    shift 4
    "${under[@]}" "$program" "$@" >out 2>err
    now=$?
    cases=$((cases + 1))
    [ "$now" -eq "$status" ] || wrong "$name: status $now, wanted $status"
    cmp -s out <(printf '%b' "$out") || wrong "$name: printed
$(sed 's/^/    /' out)"
    cmp -s err <(printf '%b' "$err") || wrong "$name: said
$(sed 's/^/    /' err)"
}

# One command line, its name and its status, which prints what stands behind it; | stands for TAB there.
prints() {
    local name=$1 status=$2
    shift 2
    expect "$name" "$status" "$(tr '|' '\t')\\n" '' "$@"
}

# One command line whose output can't be written: its name and the status.
expect_full() {
    local name=$1 status=$2 now
    shift 2
    "$program" "$@" >/dev/full 2>err
    now=$?
    cases=$((cases + 1))
    [ "$now" -eq "$status" ] || wrong "$name: status $now, wanted $status"
    [ ! -s err ] || wrong "$name: said $(cat err)"
}

# Files that aren't there after all
expect_absent() {
    local name=$1 file
    shift
    for file in "$@"; do
        cases=$((cases + 1))
        [ ! -e "$file" ] || wrong "$name: made $file"
    done
}

# What became of a file
expect_file() {
    local name=$1 file=$2 wanted=$3
    cases=$((cases + 1))
    cmp -s "$file" "$wanted" || wrong "$name: $file is not as $wanted"
}

# The dictionary that the folder's slots hold by a reader of their own: the line of the slot, and a line for each row.
expect_dictionary() {
    local name=$1 wanted=$2
    cases=$((cases + 1))
    python3 "$top/checks/read_slots.py" folder >found 2>&1
    cmp -s found <(printf '%b' "$wanted") || wrong "$name: the slots hold
$(sed 's/^/    /' found)"
}

# The folder, with these slots, if any are given.
folder() {
    rm -rf folder && mkdir folder
    [ $# -lt 1 ] || cp "$1" folder/slot0
    [ $# -lt 2 ] || cp "$2" folder/slot1
}

# A command line that is refused over a taught dictionary, and leaves both slots.
refuse() {
    folder learnt shut
    expect "$@"
    expect_file "$1" folder/slot0 learnt
    expect_file "$1" folder/slot1 shut
}

# Two slots that are refused with a line, and left.
refuse_slots() {
    local name=$1 line=$2
    folder "$3" "$4"
    expect "$name" 6 "$line\n" '' run system script folder
    expect_file "$name" folder/slot0 "$3"
    expect_file "$name" folder/slot1 "$4"
}
