#!/usr/bin/env bash
# The C boundary from C: installs the archive, the header and the pkg-config file in a temporary folder, compiles the examples and a test
# against them, runs them and compares what they write. A C compiler that is missing is installed with apt-get.
. "$(dirname "$0")/common.bash"
needs cc gcc libc6-dev
./pim install "$room" >"$room/log" 2>&1 || { cat "$room/log"; exit 1; }

# What is undefined in C, as a sum that overflows, stops the program. In $room a program is called as it is in its comment.
build() { # FILE
    local name=${1##*/}
    name=${name%.c}
    cc -std=c99 -Wall -Wextra -Wpedantic -Werror -fsanitize=undefined -fsanitize-undefined-trap-on-error \
        -I"$room/include" "$1" "$room/lib/libpimlasut.a" -o "$room/$name" || stop "$1 does not compile"
}
build examples/trims.c
build examples/film.c
build tests/boundary.c
ln -s "$here/samples" "$room/samples"
cd "$room" || exit 1

same() { # WHAT IT WROTE, WHAT IT SHOULD, ITS STATUS, WHAT THAT SHOULD BE, NAME
    [ "$1" = "$2" ] || differs "$5 wrote:"$'\n'"$1"$'\n'"and not:"$'\n'"$2"
    [ "$3" -eq "$4" ] || differs "$5: status $3, and not $4"
}
wrote=$(./boundary)
same "$wrote" "as the header says" $? 0 tests/boundary.c

# What an example shows of itself, in its comment.
for example in trims film; do
    sed -n 's/^ \*   //p' "$here/examples/$example.c" >"$room/shown"
    session "examples/$example.c" "$room/shown"
done

# One level 2 block: codes 2048, 4095, 0, 1, 1024, 3072 and ms_weight -1.
payload="B5 00 31 47 41 39 34 09 5A 18 05 00 1F FE 00 00 02 80 18 01 FF F0"
trims="target=0.5 slope=0.999755859 offset=0 power=0.000244140625 chroma=0.25 saturation=0.75 ms=-0.000244140625"
try() { # NAME STATUS TEXT [ARGUMENT...]
    local wrote
    wrote=$(./trims "${@:4}" 2>&1)
    same "$wrote" "$3" $? "$2" "examples/trims.c $1"
}
# shellcheck disable=SC2086 # a word for each byte
try 'with arguments' 0 "$trims" $payload
try 'with all bytes in one argument' 0 "$trims" "${payload// /}"
# shellcheck disable=SC2059 # bytes that are given by their numbers have to stand in the format
try 'on standard input' 0 "$trims" < <(printf "\\x${payload// /\\x}")
try 'with an odd digit' 2 "trims: 'B' has an odd number of digits" B5 B
try 'with a letter' 2 "trims: '0G' has a 'G', which is no hex digit" B5 0G
try 'with a sign' 2 "trims: '-1' has a '-', which is no hex digit" -1
try 'on a directory' 2 'trims: standard input cannot be read' <samples
# Three reserved blocks among three known ones, and the same trims behind more bytes than a payload without reserved blocks has: a
# reserved block of 1,022 bytes of zeros (19 bits of its length, 8 of its level, which is 3), then the level 2 block.
among="target=0.508056641 slope=0.524902344 offset=0.483398438 power=0.502929688 chroma=0.498046875 saturation=0.513916016 ms=-0.000244140625"
try 'with reserved blocks' 0 "$among" <samples/among-reserved.t35
long() {
    printf '%b' "$(printf '\\x%s' B5 00 31 47 41 39 34 09 5B 00 7F E0 60)"
    head -c 1021 /dev/zero
    printf '%b' "$(printf '\\x%s' 03 00 A0 03 FF C0 00 00 50 03 00 3F FE 00)"
}
try 'with a long reserved block' 0 "$trims" < <(long)
try 'with another wrapper' 1 'refused: 3, at byte 2, wrapper' B5 00 3C
try 'with a repeat' 1 'refused: 11, at bit 111, target_max_PQ' <samples/repeated-target.t35
finish 'the C boundary is as its header says, and the examples print what they show'
