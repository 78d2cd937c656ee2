#!/usr/bin/env bash
# README.md's blocks, taken out of it and run: each session has to print what the page shows, with a home of its own; the example has to
# be the crate's file, its line that of crates.txt, and the lines of C those of the C example. A block that is none of these fails. The
# C session is run if a C compiler and pkg-config are there. And README.md names the kit, and every script asks rt where it is.
. "$(dirname "$0")/common.bash"
programs show why
readme_blocks
export HOME=$room/home
mkdir "$HOME"

# Whether every line of a block, but for '...', stands in a file, in this order; spaces before them do not count.
stands_in() { # BLOCK FILE
    awk 'NR == FNR { if ($0 != "...") want[++wanted] = $0; next }
        { sub(/^ */, "") }
        index($0, want[met + 1]) { met++; if (met == wanted) exit }
        END { exit met < wanted }' "$1" "$2"
}

count=0 linked='' skipped='' met=''
for block in "$room"/blocks/*; do
    where="README.md, line $((10#${block##*/}))" first=$(head -n 1 "$block")
    count=$((count + 1))
    case $first in
    '$ '*)
        if grep -q '^\$ cc ' "$block"; then
            linked=$block
        else
            session "$where" "$block"
            met="$met $(grep -o '^\$ \./pim [a-z]*' "$block")"
        fi
        ;;
    '// '*)
        met="$met the example"
        cmp -s "$block" crates/example/src/main.rt || differs "$where: is not crates/example/src/main.rt:"$'\n'"$(diff "$block" crates/example/src/main.rt)"
        ;;
    'example: '*)
        met="$met its line"
        grep -qxF "$(cat "$block")" crates.txt || differs "$where: crates.txt has no such line"
        ;;
    'uint32_t '*)
        met="$met the calls from C"
        stands_in "$block" examples/trims.c || differs "$where: these lines do not stand so in examples/trims.c"
        ;;
    *) differs "$where: a block that nothing here runs: $first" ;;
    esac
done
for kind in './pim show' './pim why' './pim vendor' 'the example' 'its line' 'the calls from C'; do
    [[ $met == *"$kind"* ]] || differs "README.md has no block with $kind"
done

if [ -z "$linked" ]; then
    differs "README.md: it has no C session, with cc"
elif command -v cc >/dev/null && command -v pkg-config >/dev/null; then
    # what building the archive says, if it is due, is not in the page
    ./pim install "$room/before" >"$room/log" 2>&1 || stop "./pim install fails: $(tail -n 3 "$room/log")"
    session "README.md, line $((10#${linked##*/}))" "$linked"
else
    skipped="; its C session was not run, for cc or pkg-config is missing"
fi

# The kit: README.md names one, and no script says where it is.
[ "$(grep -c '`rattle-kit-[^`]* logic [0-9a-f]*`' README.md)" -eq 1 ] || differs "README.md does not name the kit once, as rt version prints it"
! grep -nI '/opt/rattle' pim .ci/run bench/* second/run second/build.sh tests/*.sh tests/*.bash | grep -v '^tests/readme.sh:' ||
    differs "a script says where the kit is, and does not ask rt doc"
finish "$count blocks of README.md are so$skipped"
