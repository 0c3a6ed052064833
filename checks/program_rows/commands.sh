# shellcheck shell=bash
# Rows of checks/program for the commands on images, and for the generator

image_rows() {
    local length
    expect 'build' 0 '' '' build system image
    expect 'check' 0 'rows 5 nodes 4\n' '' check image
    expect 'dump' 0 '是 9000 ㄕˋ\n試 300 ㄕˋ\n測 100 ㄘㄜˋ\n策 200 ㄘㄜˋ\n測試 9318 ㄘㄜˋ ㄕˋ\n' '' dump image
    length=$(stat -c %s image)
    head -c $((length - 1)) image >shorter
    cp image longer && printf x >>longer
    expect 'a cut image' 4 "system image $((length - 1))\n" '' check shorter
    expect 'a longer image' 4 "system image $length\n" '' check longer
    expect 'a text for an image' 4 'system image 0\n' '' dump system
    expect 'nothing for an image' 4 'system image 0\n' '' check empty
    expect 'a folder for an image' 7 'source\n' '' check folder
    expect 'an image for a text' 4 '' '' build image made
    printf 'system 1 phrase\n' >refused
    expect_file 'an image for a text' made refused
    cp system both
    expect 'a text built into itself' 0 '' '' build both both
    expect 'what it became' 0 'rows 0 nodes 1\n' '' check both
}

# The generator. Each number is by a second reading of its rules.
make_rows() {
    local made='steps 4096\nkeys 10187\ncommits 958\nentries 5640\nlife 2058\npairs 7\n'
    expect 'make' 0 "$made" '' make 7
    expect 'make of 20 digits' 0 "$made" '' make 00000000000000000007
    expect 'the least number' 0 'steps 4096\nkeys 10258\ncommits 1051\nentries 5738\nlife 2107\npairs 6\n' '' make 0
    expect 'the greatest number' 0 'steps 4096\nkeys 10163\ncommits 983\nentries 5591\nlife 2036\npairs 7\n' '' make 18446744073709551615
    expect_full 'make on a full device' 8 make 7
}
