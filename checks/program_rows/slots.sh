# shellcheck shell=bash
# Slots, written by docs/FORMATS.md

# Bytes that are given in hexadecimal
bytes() {
    printf '%b' "$(sed 's/ //g; s/../\\x&/g' <<<"$1")"
}

# A number as eight bytes in hexadecimal, the low one first
u64() {
    local number=$1 place
    for ((place = 0; place < 8; place++)); do
        printf '%02x' $((number & 255))
        number=$((number >> 8))
    done
}

# The image of the one row 測試 with this frequency and time, in hexadecimal
image_of_word() {
    echo "43 48 45 57 54 52 49 31 01 00 00 00 03 00 00 00 06 00 00 00" \
        "00 00 01 00 01 00 00 00 00 00 00 00 00 00 00 00" \
        "1c 28 01 00 02 00 00 00 00 00 00 00 00 00 00 00" \
        "04 22 00 00 03 00 00 00 01 00 00 00 00 00 00 00" \
        "$(u64 "$1" | head -c 8) 00 00 00 00 06 00 00 00 $(u64 "$2")" \
        "e6 b8 ac e8 a9 a6"
}

# Writes a slot: its number, its life, and its image in hexadecimal.
write_slot() {
    local image=${4// /}
    { printf CHEWSLT2; bytes "$(u64 "$2")$(u64 "$3")$(u64 $((${#image} / 2)))$image"; } >body
    { printf '\xa5'; cat body; bytes "$(sha256sum body | head -c 64)"; } >"$1"
}

# Writes a slot of the word that was learnt: its number, the word's frequency, and its time, at which it was learnt last.
write_word() {
    write_slot "$1" "$2" $(($4 + 1)) "$(image_of_word "$3" "$4")"
}

# Copies a file with one byte, given in hexadecimal, in place of that at a place.
with_byte() {
    { head -c "$3" "$1"; bytes "$4"; tail -c +$(($3 + 2)) "$1"; } >"$2"
}
