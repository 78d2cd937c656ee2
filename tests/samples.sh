#!/usr/bin/env bash
# The samples: each has its listing, samples/README.md has the bytes and the listing of each, and its program, show for NAME.t35 and
# unit for NAME.unit, prints exactly the listing, whether the bytes come at once or one by one. Each NAME.t35 has its NAME.why too, which
# why prints, and which samples/README.md has of each that is refused. Of an input longer than 4,096 bytes show and why read the first
# 4,096, and unit of one longer than 4,097 the first 4,097.
# The programs are run by ./pim, and have to be built.
. "$(dirname "$0")/common.bash"
shopt -s nullglob
programs show unit why
mkfifo "$room/pipe" || exit 1

# The program of a sample, by what its name ends in.
program_of() { # FILE
    case $1 in
    *.unit) echo unit ;;
    *) echo show ;;
    esac
}

# What a run of ./pim PROGRAM left in $room/out: exactly this listing, and a status that says the same.
judge() { # HOW PROGRAM LISTING STATUS
    local expected=1
    [ "$(head -n 1 "$3")" != result=0 ] || expected=0
    # status 2 is pim's own: every later run would fail alike
    [ "$4" -ne 2 ] || stop "$1: ./pim $2 could not run the program"
    if ! cmp -s "$room/out" "$3"; then
        differs "$1: $2 does not print what $3 has:"
        diff "$3" "$room/out"
    elif [ "$4" -ne "$expected" ]; then
        differs "$1: status $4 of ./pim $2, and not $expected"
    fi
}

# Feeds a program a byte only once it has taken the one before: written faster, the bytes would wait in the pipe and come at once.
in_pieces() { # FILE
    local byte pid
    # open for both, so that opening waits for nobody; the program has the reading end alone, or its input would never end
    exec 3<>"$room/pipe"
    exec 4<"$room/pipe"
    ./pim "$(program_of "$1")" <&4 3>&- 4<&- >"$room/out" &
    pid=$!
    exec 4<&-
    for byte in $(od -An -v -tx1 "$1"); do
        # shellcheck disable=SC2059 # a byte that is given by its number has to stand in the format
        printf "\\x$byte" >&3
        while read -r -t 0 -u 3 && kill -0 "$pid" 2>/dev/null; do sleep 0.001; done
    done
    exec 3>&-
    wait "$pid"
}

# The lines of a fenced block below the heading '### NAME' of samples/README.md: its first (1), its second (2) or its third (3).
block() { # NAME WHICH
    awk -v name="$1" -v which="$2" '
        /^#/ { here = ($1 == "###" && $2 == name && NF == 2); fences = 0; next }
        /^```/ { fences++; next }
        here && fences == 2 * which - 1' samples/README.md
}

for listing in samples/*.listing; do
    its=("${listing%.listing}".t35 "${listing%.listing}".unit)
    found=0
    for sample in "${its[@]}"; do [ ! -f "$sample" ] || found=$((found + 1)); done
    [ "$found" -eq 1 ] || differs "$listing has $found samples, and not exactly one of ${its[*]}"
done
for why in samples/*.why; do
    [ -f "${why%.why}.t35" ] || differs "$why has no ${why%.why}.t35"
done
headings=$(sed -n 's/^### *\([^ ]*\.\(t35\|unit\)\)$/\1/p' samples/README.md)
for name in $headings; do
    [ -f "samples/$name" ] || differs "samples/README.md has $name, and there is no such file"
done

payloads=(samples/*.t35) units=(samples/*.unit)
reasons=()
[ "${#payloads[@]}" -gt 0 ] || stop "there are no payloads"
[ "${#units[@]}" -gt 0 ] || stop "there are no units"
for sample in "${payloads[@]}" "${units[@]}"; do
    name=${sample##*/} listing=${sample%.*}.listing program=$(program_of "$sample")
    [ -f "$listing" ] || {
        differs "$sample has no $listing"
        continue
    }

    [ "$(grep -cxF "$name" <<<"$headings")" -eq 1 ] || differs "samples/README.md has not exactly one heading '### $name'"
    described=$(block "$name" 1 | tr -d ' \n' | tr a-f A-F)
    bytes=$(od -An -v -tx1 "$sample" | tr -d ' \n' | tr a-f A-F)
    [ "$described" = "$bytes" ] || differs "samples/README.md gives $name other bytes: $described, and the file has $bytes"
    # a last line '...' says that the listing goes on
    block "$name" 2 >"$room/described"
    if [ "$(tail -n 1 "$room/described")" = ... ]; then
        sed -i '$d' "$room/described"
        head -n "$(wc -l <"$room/described")" "$listing" >"$room/listing"
    else
        cp "$listing" "$room/listing"
    fi
    cmp -s "$room/described" "$room/listing" || differs "samples/README.md does not give $name the lines of $listing"
    result=$(sed -n '1s/^result=//p' "$listing")
    grep -qF "| $name | $result |" samples/README.md || differs "the table of samples/README.md does not give $name the result $result"

    ./pim "$program" <"$sample" >"$room/out"
    judge "$sample" "$program" "$listing" $?
    in_pieces "$sample"
    judge "$sample, byte by byte" "$program" "$listing" $?

    # why is for payloads, and gives them the number that show gives; of an accepted one it says no more, and samples/README.md nothing
    [ "$program" = show ] || continue
    why=${sample%.*}.why
    [ -f "$why" ] || {
        differs "$sample has no $why"
        continue
    }
    [ "$(head -n 1 "$why")" = "result=$result" ] || differs "$why has not the result $result of $listing"
    block "$name" 3 >"$room/described"
    if [ "$result" = 0 ]; then
        [ "$(cat "$why")" = result=0 ] || differs "$why has more than the line result=0"
        [ ! -s "$room/described" ] || differs "samples/README.md gives $name, which is accepted, a third block"
    else
        cmp -s "$room/described" "$why" || differs "samples/README.md does not give $name the lines of $why"
        reasons[result]=1
    fi
    ./pim why <"$sample" >"$room/out"
    judge "$sample" why "$why" $?
done
# Every number that wrapped data can get has a sample.
for number in 1 2 3 4 5 6 7 9 10 11 12 17 18 19; do
    [ -n "${reasons[number]:-}" ] || differs "no sample is refused with $number"
done

# A file that two commands read in turn is read on where the first stopped.
reads_at_most() { # LIMIT HOW PROGRAM LISTING FILE
    local size left expected=0
    size=$(wc -c <"$5")
    {
        ./pim "$3" >"$room/out"
        judge "$2, $size in all" "$3" "$4" $?
        left=$(wc -c)
    } <"$5"
    [ "$size" -le "$1" ] || expected=$((size - $1))
    [ "$left" -eq "$expected" ] || differs "of $size bytes $3 left $left unread, and not $expected"
}

# The limit shows in what is left of the input, and in the answer to a payload that is longer.
# one-block.t35 has 16 bytes, and 64 bits of data.
echo result=12 >"$room/listing"
printf 'result=12\noffset=64\nelement=end\nvalue=%s\nallowed=0-0\n' $((4096 - 16)) >"$room/why"
for size in 4096 5000; do
    cp samples/one-block.t35 "$room/long"
    truncate -s "$size" "$room/long"
    reads_at_most 4096 'one-block.t35 and zero bytes' show "$room/listing" "$room/long"
    reads_at_most 4096 'one-block.t35 and zero bytes' why "$room/why" "$room/long"
done

# The bytes of a row of bits.
bytes_of() { # BITS
    local bits=$1
    while [ -n "$bits" ]; do
        # shellcheck disable=SC2059 # a byte that is given by its number has to stand in the format
        printf "\\x$(printf %02x $((2#${bits:0:8})))"
        bits=${bits:8}
    done
}

# A payload of 24 reserved blocks that has this many bytes, the wrapper with them: four times five empty blocks, of nine bits each, and
# a block of 511 to 1,022 bytes of zeros, of 27 bits and those. So every long block's content begins and ends on a byte boundary.
long_payload() { # SIZE
    local empty=100000011 left=$(($1 - 8 - 2 - 4 * 9)) length low
    head -c 8 samples/one-block.t35
    bytes_of 0101100001100100
    for length in 1022 1022 1022 $((left - 3 * 1022)); do
        low=''
        for place in 8 7 6 5 4 3 2 1 0; do low=$low$(((length - 511) >> place & 1)); done
        bytes_of "$empty$empty$empty$empty${empty}0000000001${low}00000011"
        head -c "$length" /dev/zero
    done
}
for size in 4095 4096 4097; do
    long_payload "$size" >"$room/long"
    [ "$(wc -c <"$room/long")" -eq "$size" ] || stop "a payload of $size bytes was not made"
    if [ "$size" -le 4096 ]; then
        printf 'result=0\nrefresh=1\nbits=%s\nblocks=0\n' $((8 * (size - 8))) >"$room/listing"
        echo result=0 >"$room/why"
    else
        echo result=1 >"$room/listing"
        # its last byte is the last of the last content
        printf 'result=1\noffset=%s\nelement=ext_dm_alignment_zero_bit\n' $((8 * (4096 - 8))) >"$room/why"
    fi
    reads_at_most 4096 'reserved blocks' show "$room/listing" "$room/long"
    reads_at_most 4096 'reserved blocks' why "$room/why" "$room/long"
done

# one-message.unit with a message of type 5 before its own, so long that the unit has this many bytes: two header bytes, the type, a
# byte FF of the size for each 255 of the content, the last byte of the size, the content.
message=$(($(wc -c <samples/one-message.unit) - 2))
long_unit() { # SIZE
    local rest=$(($1 - 2 - message - 2)) links content
    links=$((rest / 256))
    content=$((rest - links))
    head -c 2 samples/one-message.unit
    printf '\x05'
    head -c "$links" /dev/zero | tr '\0' '\377'
    # shellcheck disable=SC2059 # a byte that is given by its number has to stand in the format
    printf "\\x$(printf %02x $((content - 255 * links)))"
    head -c "$content" /dev/zero | tr '\0' U
    tail -c "$message" samples/one-message.unit
}
echo result=30 >"$room/listing"
for size in 4095 4096 4097 5000; do
    long_unit "$size" >"$room/long"
    [ "$(wc -c <"$room/long")" -eq "$size" ] || stop "a unit of $size bytes was not made"
    listing=samples/one-message.listing
    [ "$size" -le 4096 ] || listing=$room/listing
    reads_at_most 4097 'one-message.unit behind another message' unit "$listing" "$room/long"
done

finish "${#payloads[@]} payloads and ${#units[@]} units, at once and byte by byte, why of each payload, and the limits of their programs"
