# shellcheck shell=bash
# Rows of checks/program that run: what they print, and what their slots hold then

# The keys of two syllables and Enter, and of one
typed='|0|ㄘ|||
|0|ㄘㄜ|||
策|2||||
策|2|ㄕ|||
測試|4||||
|0||測試||'
typed_one='|0|ㄘ|||
|0|ㄘㄜ|||
策|2||||
|0||策||'

# Runs, each behind those before it, and what the slots hold then
run_rows() {
    folder
    expect 'an empty script' 0 '' '' run system empty folder
    expect_file 'an empty script' folder/slot0 empty
    expect_file 'an empty script' folder/slot1 empty
    prints 'an empty system' 0 run empty script folder <<'END'
context 1
|0|ㄘ|||
|0|ㄘㄜ|||
|0||||bell
|0|ㄕ|||
|0||||bell
|0||||bell
END
    expect_file 'an empty system' folder/slot0 empty
    prints 'two syllables' 0 run system script folder <<END
context 1
$typed
round 1 saved 3
END
    expect_file 'two syllables' folder/slot0 learnt
    expect_file 'two syllables' folder/slot1 empty
    prints 'two syllables again' 0 run system script folder empty <<END
context 1
$typed
round 1 saved 3
END
    expect_file 'two syllables again' folder/slot0 learnt
    expect_file 'two syllables again' folder/slot1 again
    expect 'build' 0 '' '' build system image
    prints 'an image as the system' 0 run image script folder <<END
context 1
$typed
round 1 saved 3
END
    expect_dictionary 'an image as the system' 'slot 0 number 3 life 3\n9320 2 測試 10268,8708\n'
}

# Several contexts, and rounds
context_rows() {
    folder
    prints 'three contexts' 0 run system "$top/examples/three-contexts.keys" folder <<END
context 1
|0|ㄘ|||
|0|ㄘㄜ|||
策|2||||
|0||||
|0|ㄕ|||
|0||||
|0||||bell
context 2
|0|ㄕ|||
是|2||||
context 3
$typed
round 1 saved 5
END
    expect_file 'three contexts' folder/slot0 learnt
    folder
    printf '%s:hk4<E>\n' {1..16} >sixteen
    prints '16 contexts that learn the same word' 0 run system sixteen folder <<END
$(for context in {1..16}; do printf 'context %s\n%s\n' "$context" "$typed_one"; done)
round 1 saved 32
END
    expect_dictionary '16 contexts that learn the same word' 'slot 0 number 1 life 16\n247 15 策 10268\n'
    folder
    printf 'round\n%.0s' {1..64} >rounds
    prints '64 rounds and nothing else' 0 run system rounds folder <<END
$(for round in {1..64}; do echo "round $round saved $((2 * round - 2))"; done)
END
    expect_dictionary '64 rounds and nothing else' 'slot 1 number 64 life 0\n'
}

# What the trace has
trace_rows() {
    folder
    prints 'a trace' 0 run --trace system script folder <<END
context 1
$typed
round 1 saved 3
1 look 10268
1 look 10268,8708
1 learn 10268,8708 測試 9318 9318
0 freeze
0 install 3
END
    expect_file 'a trace' folder/slot0 learnt
    expect 'a trace of nothing' 0 '' '' run system empty folder --trace
    refuse 'a trace of a refused run' 5 'script 1 byte\n' '' run system --trace system folder
    folder
    printf '1:hk4g4<H><K2><E>hk4g4\n' >hides
    prints 'a hidden word' 0 run system hides folder --trace empty <<'END'
context 1
|0|ㄘ|||
|0|ㄘㄜ|||
策|2||||
策|2|ㄕ|||
測試|4||||
測試|0||||
策是|0||||hidden
|0||策是||
|0|ㄘ|||
|0|ㄘㄜ|||
策|2||||
策|2|ㄕ|||
策是|4||||
round 1 saved 7
1 look 10268
1 look 10268,8708
1 hide 10268,8708 測試
1 look 10268,8708
1 learn 10268,8708 策是 0 9318
1 look 10268
1 look 10268,8708
0 freeze
0 install 7
END
    expect_dictionary 'a hidden word' 'slot 0 number 1 life 1\n0 18446744073709551615 測試 10268,8708\n1 0 策是 10268,8708\n'
    folder
    printf '1:hk4g4<L><T><H><C2><F2><F2>\n' >forgets
    prints 'a word that is forgotten' 0 run system --trace forgets folder <<'END'
context 1
|0|ㄘ|||
|0|ㄘㄜ|||
策|2||||
策|2|ㄕ|||
測試|4||||
測試|2||||
策是|2||||
策是|0||||
策是|0||||added
策是|0||||forgot
策是|0||||none
round 1 saved 9
1 look 10268
1 look 10268,8708
1 look 10268,8708
1 learn 10268,8708 策是 0 9318
1 look 10268,8708
1 forget 10268,8708 策是
1 look 10268,8708
1 forget 10268,8708 策是
1 look 10268,8708
0 freeze
0 install 9
END
    expect_dictionary 'a word that is forgotten' 'slot 0 number 1 life 1\n'
}

# What a run finds of the run before
session_rows() {
    local dictionary=$top/examples/homophones.txt keys=$top/examples/homophones.keys first second
    local taken='|0|ㄕ|||
是|2||||
是|2|||1/1 1是 2適|
適|2||||
適|2|ㄕ|||
適時|4||||
|0||適時||'
    first=$'事實|4||||\n|0||事實||'
    second=$'適時|4||||\n|0||適時||'
    folder
    for shown in "$first" "$second"; do
        prints "the same keys, where ${shown%%|*} is shown" 0 run "$dictionary" "$keys" folder <<END
context 1
|0|ㄕ|||
是|2||||
是|2|ㄕ|||
$shown
$taken
$taken
round 1 saved 13
END
    done
    expect_dictionary 'the same keys' 'slot 1 number 2 life 6\n100 0 事實 8708,8706\n115 5 適時 8708,8706\n'
}

# Which slot counts, and which is written
slot_choice_rows() {
    folder shut learnt
    prints 'a dictionary in slot 1' 0 run system script folder <<END
context 1
$typed
round 1 saved 3
END
    expect_file 'a dictionary in slot 1' folder/slot0 again
    expect_file 'a dictionary in slot 1' folder/slot1 learnt
    printf 'round\n' >round
    folder again learnt
    expect 'a round over the older slot' 0 'round 1 saved 0\n' '' run system round folder
    expect_file 'a round over the older slot' folder/slot0 again
    expect_dictionary 'a round over the older slot' 'slot 1 number 3 life 2\n9319 1 測試 10268,8708\n'
    write_word other 1 9330 4
    folder learnt other
    expect 'slots of one number' 0 'round 1 saved 0\n' '' run system round folder
    expect_file 'slots of one number' folder/slot0 learnt
    expect_dictionary 'slots of one number' 'slot 1 number 2 life 1\n9318 0 測試 10268,8708\n'
    { bytes 'a5'; printf CHEWSLT1; bytes "$(u64 1)$(u64 1)$(u64 94)$(image_of_word 9318 0)"; } >changed
    { cat learnt; printf '0123456789'; } >longer
    for first in changed longer; do
        folder "$first"
        prints "slot 0 as $first" 0 run system script folder <<END
context 1
$typed
round 1 saved 3
END
        expect_file "slot 0 as $first" folder/slot0 "$first"
        expect_file "slot 0 as $first" folder/slot1 again
    done
    head -c 32 learnt >shorter
    for first in shut shorter; do
        folder "$first"
        prints "slot 0 as $first" 0 run system script folder <<END
context 1
$typed
round 1 saved 3
END
        expect_file "slot 0 as $first" folder/slot0 learnt
    done
}

settings_rows() {
    folder
    printf '1:hk4<V><N>\n' >pages
    prints 'a page of one' 0 run system pages folder narrow <<'END'
context 1
|0|ㄘ|||
|0|ㄘㄜ|||
策|2||||
策|2|||1/2 1策|
策|2|||2/2 1測|
END
    printf 'selection = "asdfghjkl;"\n' >settings
    printf '1:hk4<V>s\n' >picks
    prints 'letters that pick' 0 run system picks folder settings <<'END'
context 1
|0|ㄘ|||
|0|ㄘㄜ|||
策|2||||
策|2|||1/1 a策 s測|
測|2||||
END
    printf 'learn = false\n' >settings
    prints 'nothing is learnt' 0 run system script folder settings <<END
context 1
$typed
END
    expect_dictionary 'nothing is learnt' 'none\n'
    printf 'layout = "eten"\n' >settings
    printf "1:'r4/4<E>\n" >eten
    prints 'the layout of Eten' 0 run system eten folder settings <<END
context 1
$typed
round 1 saved 3
END
    expect_file 'the layout of Eten' folder/slot0 learnt
    folder
    printf 'buffer = 2\n' >settings
    printf '1:hk4g4hk4\n' >releases
    prints 'a buffer of two' 0 run system releases folder settings <<'END'
context 1
|0|ㄘ|||
|0|ㄘㄜ|||
策|2||||
策|2|ㄕ|||
測試|4||||
測試|4|ㄘ|||
測試|4|ㄘㄜ|||
策|2||測試||
round 1 saved 4
END
    expect_file 'a buffer of two' folder/slot0 learnt
    folder
    printf 'cap = 2\n' >settings
    printf '1:hk4<E>g4<E>hk4g4<E>hk4<E>\n' >fills
    prints 'a dictionary of two' 0 run system fills folder settings <<END
context 1
$typed_one
|0|ㄕ|||
是|2||||
|0||是||
${typed}full
$typed_one
round 1 saved 9
END
    expect_dictionary 'a dictionary of two' 'slot 0 number 1 life 3\n9000 1 是 8708\n201 2 策 10268\n'
}
