# shellcheck shell=bash
# Rows of checks/program that are refused: words, files that can't be opened, inputs, slots

# Words that are no command. No file is opened for them.
words_rows() {
    folder
    expect 'no words' 2 'words\n' ''
    expect 'help' 2 'words\n' '' --help
    expect 'version' 2 'words\n' '' --version
    expect 'two names' 2 'words\n' '' run system script
    expect 'an empty word' 2 'words\n' '' run system '' folder
    expect 'a name with a dash' 2 'words\n' '' run system script -folder
    expect 'two dashes' 2 'words\n' '' run system script folder --
    expect 'two traces' 2 'words\n' '' run system script folder --trace --trace
    expect 'a trace before the command' 2 'words\n' '' --trace run system script folder
    expect 'five names' 2 'words\n' '' run system script folder narrow more
    expect 'no such command' 2 'words\n' '' walk system script folder
    expect 'a trace of a build' 2 'words\n' '' build --trace system image
    expect 'a check of two' 2 'words\n' '' check system system
    expect 'a word that is no text' 2 'words\n' '' run system script $'fold\xffer'
    expect 'a number too great' 2 'words\n' '' make 18446744073709551616
    expect 'a number too long' 2 'words\n' '' make 000000000000000000007
    expect 'no number' 2 'words\n' '' make seven
    expect 'a number below 0' 2 'words\n' '' make -7
    expect_full 'wrong words on a full device' 2 walk
    expect_absent 'wrong words' folder/slot0 folder/slot1
}

# Files and folders that can't be opened
open_rows() {
    folder
    expect 'no system' 13 '' 'open nothing\n' run nothing script folder
    expect 'no script' 13 '' 'open nothing\n' run system nothing folder
    expect 'no settings' 13 '' 'open nothing\n' run system script folder nothing
    expect_absent 'a file that cannot be opened' folder/slot0 folder/slot1
    expect 'no folder' 13 '' 'open nowhere\n' run system script nowhere
    expect_absent 'no folder' nowhere
    expect 'a missing file before a wrong text' 13 '' 'open nothing\n' run script script folder nothing
    expect 'the system before the folder' 13 '' 'open nothing\n' run nothing script nowhere
    expect 'a file as the folder' 13 '' 'open system\n' run system script system
    mkdir folder/slot1
    expect 'a folder as a slot' 13 '' 'open folder\n' run system script folder
    expect 'no file to build from' 13 '' 'open nothing\n' build nothing made
    expect_absent 'no file to build from' made
    expect 'no folder to build into' 13 '' 'open nothing/made\n' build system nothing/made
    expect 'a folder to build into' 13 '' 'open folder\n' build system folder
    expect 'no image to check' 13 '' 'open nothing\n' check nothing
    expect 'no image to dump' 13 '' 'open nothing\n' dump nothing
}

# The same for rights
rights_rows() {
    local under=("${nobody[@]}")
    folder learnt shut
    cp system locked && chmod 0 locked
    chmod 444 folder/slot0 folder/slot1
    expect 'a system without rights' 13 '' 'open locked\n' run locked script folder
    expect 'slots that cannot be written' 13 '' 'open folder\n' run system script folder
    expect_file 'slots that cannot be written' folder/slot0 learnt
    folder
    chmod 555 folder
    expect 'a folder that cannot be written' 13 '' 'open folder\n' run system script folder
    expect_absent 'a folder that cannot be written' folder/slot0
    chmod 755 folder
}

# Inputs that are refused. The dictionary stays, byte for byte.
input_rows() {
    refuse 'a buffer too wide' 3 'settings buffer range\n' '' run system script folder wide
    refuse 'a key misspelt' 3 'settings ? unknown\n' '' run system script folder misspelt
    refuse 'a script for the settings' 3 'settings ? toml\n' '' run system script folder script
    refuse 'the settings before the system' 3 'settings buffer range\n' '' run script script folder wide
    refuse 'the script for the system' 4 'system 1 phrase\n' '' run script script folder
    printf '測 100 ㄘㄜˋ\n測 abc ㄘㄜˋ\n' >letters
    refuse 'letters for a frequency' 4 'system 2 frequency\n' '' run letters script folder
    refuse 'the system before the script' 4 'system 2 frequency\n' '' run letters letters folder
    bytes "$(image_of_word 9318 0)" >word
    head -c 93 word >shorter
    cp word longer && printf x >>longer
    refuse 'an image cut short' 4 'system image 93\n' '' run shorter script folder
    refuse 'an image with a byte more' 4 'system image 94\n' '' run longer script folder
    refuse 'the system for the script' 5 'script 1 byte\n' '' run system system folder
    printf '17:hk4\n' >many
    refuse 'a 17th context' 5 'script 1 context\n' '' run system many folder
    printf '1:<Q>\n' >unnamed
    refuse 'no such key' 5 'script 1 key\n' '' run system unnamed folder
    refuse 'a folder as the system' 7 'source\n' '' run folder script folder
    refuse 'a folder as the script' 7 'source\n' '' run system folder folder
    refuse 'a folder as the settings' 7 'source\n' '' run system script folder folder
    folder
    expect 'a refused script over no slots' 5 'script 1 byte\n' '' run system system folder
    expect_file 'slots that are made' folder/slot0 empty
    expect_file 'slots that are made' folder/slot1 empty
    expect_full 'a refused script on a full device' 5 run system system folder
}

# A text of so many bytes that are all the same character
text_of() {
    head -c "$2" /dev/zero | tr '\0' "$1"
}

# Limits, and one more
limit_rows() {
    text_of '#' $((64 << 10)) >long
    folder
    expect 'settings of the greatest length' 0 '' '' run system empty folder long
    text_of '#' $(((64 << 10) + 1)) >long
    refuse 'settings too long' 3 'settings ? size\n' '' run system script folder long
    text_of '#' $((64 << 20)) >long
    expect 'a system of the greatest length' 0 '' '' run long empty folder
    text_of '#' $(((64 << 20) + 1)) >long
    refuse 'a system too long' 4 'system 0 size\n' '' run long script folder
    text_of '#' $((1 << 20)) >long
    folder
    expect 'a script of the greatest length' 0 '' '' run system long folder
    text_of '#' $(((1 << 20) + 1)) >long
    refuse 'a script too long' 5 'script 0 size\n' '' run system long folder
    { printf '1:'; text_of h 65536; } >long
    prints '65,536 keys' 0 run system long folder < <(echo 'context 1' && yes '|0|ㄘ|||' | head -n 65536)
    { printf '1:'; text_of h 65537; } >long
    refuse 'a 65,537th key' 5 'script 1 keys\n' '' run system long folder
    printf 'round\n%.0s' {1..65} >long
    refuse 'a 65th round' 5 'script 65 rounds\n' '' run system long folder
    truncate -s $((1 << 28)) long
    folder long
    expect 'a shut slot of the greatest length' 0 '' '' run system empty folder
    rm long
}

# Slots that are refused. Both stay, byte for byte.
slot_rows() {
    local length
    truncate -s $(((1 << 28) + 1)) large
    refuse_slots 'slot 0 too large' 'slot 0 too large 268435457' large learnt
    refuse_slots 'slot 1 too large' 'slot 1 too large 268435457' learnt large
    with_byte learnt changed 126 a7
    refuse_slots 'a byte of the image changed' 'slot 0 damaged 127' changed empty
    refuse_slots 'the same in slot 1' 'slot 1 damaged 127' learnt changed
    refuse_slots 'both slots refused' 'slot 0 damaged 127' changed large
    with_byte learnt changed 158 00
    refuse_slots 'a byte of the digest changed' 'slot 0 damaged 127' changed again
    with_byte learnt changed 8 33
    refuse_slots 'no such format' 'slot 0 damaged 1' changed shut
    write_slot changed 0 1 "$(image_of_word 9318 0)"
    refuse_slots 'the number 0' 'slot 0 damaged 9' changed shut
    write_slot changed 1 1 "$(image_of_word 100000000 0)"
    refuse_slots 'a frequency too great' 'slot 0 damaged 101' changed shut
    { head -c 25 learnt; bytes "$(u64 -1)"; tail -c +34 learnt; } >changed
    refuse_slots 'an image of 2^64-1 bytes' 'slot 0 damaged 159' changed shut
    for length in 33 60 126 127 158; do
        head -c "$length" learnt >changed
        refuse_slots "a slot of $length bytes" "slot 0 damaged $length" changed shut
    done
    folder changed
    expect 'the script before the slots' 5 'script 1 byte\n' '' run system system folder
}
