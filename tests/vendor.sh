#!/usr/bin/env bash
# ./pim vendor: README.md's line fills a new repository, README.md's example is added to it, and rt ci proves, builds and runs that there.
# The proofs of the copied crates are not done again: rt ci goes by the sums of the files, so what it proved here counts there too if the
# copies are the same, and that none of them is proved anew shows that they are. Then: what is there already is left, what is other is
# refused and nothing changes, the lines stand in their order, and all that a crate uses comes with it.
# It wants to be run behind rt ci, as in the gate; else it takes as long as the proofs.
. "$(dirname "$0")/common.bash"
readme_blocks
export HOME=$room/home
player=$HOME/player
mkdir "$HOME"

# Runs ./pim vendor and keeps its output, its errors and its status.
called=''
vendor() { # FOLDER [CRATE...]
    called="./pim vendor $*"
    ./pim vendor "$@" >"$room/out" 2>"$room/err"
    status=$?
}
all_of() { (cd "$1" && find . ! -type d -exec sha256sum {} + | sort); }
names() { sed -n 's/^\([a-z_0-9]*\)\( staticlib\)\{0,1\}:.*/\1/p' "$1"; }
copied() { # CRATE...: status 0, and says that these were copied
    [ "$status" -eq 0 ] || differs "$called: status $status: $(cat "$room/err")"
    [ "$(sed -n 's/^copied: //p' "$room/out")" = "$*" ] || differs "$called: does not say that it copied '$*', but: $(cat "$room/out")"
}
# In the order of this repository, each with its line here, and its files but for the must-fail edits.
in_step() { # FOLDER
    local crate
    diff <(grep -Fx -f <(names "$1/crates.txt") <(names crates.txt)) <(grep -Fx -f <(names crates.txt) <(names "$1/crates.txt")) >&2 ||
        differs "$called: its crates.txt has another order"
    for crate in $(names "$1/crates.txt" | grep -Fx -f <(names crates.txt)); do
        diff -r -x must-fail -x out "crates/$crate" "$1/crates/$crate" >&2 || differs "$called: crates/$crate is not the same"
        grep -qxF "$(grep "^${crate}[: ]" crates.txt)" "$1/crates.txt" || differs "$called: crates.txt has another line for $crate"
        [ ! -e "$1/crates/$crate/must-fail" ] || differs "$called: copies the must-fail edits of $crate"
        [ ! -e "$1/crates/$crate/out" ] || differs "$called: copies what rt made of $crate"
    done
}
refuses() { # FOLDER WHAT IS SAID [CRATE...]: status 2, one line, nothing changes
    local before
    before=$(all_of "$1" 2>/dev/null)
    vendor "$1" "${@:3}"
    [ "$status" -eq 2 ] || differs "$called: status $status, and not 2"
    [ ! -s "$room/out" ] || differs "$called: prints $(cat "$room/out")"
    [ "$(wc -l <"$room/err")" -eq 1 ] || differs "$called: says not exactly one line: $(cat "$room/err")"
    grep -qF -- "$2" "$room/err" || differs "$called: does not say '$2', but: $(cat "$room/err")"
    [ "$(all_of "$1" 2>/dev/null)" = "$before" ] || differs "$called: changes something"
}

# ---- README.md's line and its example
block() { # PATTERN: the first block of README.md with such a line
    grep -l -- "$1" "$room"/blocks/* | head -n 1
}
line=$(sed -n 's/^\$ \(\.\/pim vendor ~\/player .*\)/\1/p' "$(block '^\$ \./pim vendor ')")
[ -n "$line" ] || stop "README.md has no line '\$ ./pim vendor ~/player ..'"
bash -c "$line" >"$room/out" || stop "README.md's line fails: $line"
called=$line
in_step "$player"
crates=$(names "$player/crates.txt")
mkdir -p "$player/crates/example/src"
cat "$(block '^fn main')" >"$player/crates/example/src/main.rt"
cat "$(block '^example: ')" >>"$player/crates.txt"
sed 1d "$(block '^\$ cat crates/example/stdout')" >"$player/crates/example/stdout"
(cd "$player" && rt ci) >"$room/log" 2>&1 || differs "the example is not proved or does not run in a repository with the crates of '$line': $(tail -n 5 "$room/log")"
# where nothing can be kept, for want of a place or of room on the disk, rt ci says so
if ! grep -qE '^rt: note: (.* cannot be used, so nothing is kept|the disk fell below)' "$room/log"; then
    for crate in $crates; do
        grep -q "^rt: $crate is kept: an earlier run on this machine proved the same files" "$room/log" || differs "$line: $crate is proved again there, so it is not the same"
    done
fi
grep -q '^rt: example ran, and wrote what its file stdout has' "$room/log" || differs "the example does not run in a repository with the crates of '$line'"
rm -rf "$player"/crates/*/out

# ---- once more, and more of it
before=$(all_of "$player")
vendor "$player" wrapper
copied
[ "$(all_of "$player")" = "$before" ] || differs "$called: changes what is there"
vendor "$player" track sei
copied emulation rbsp messages sei keyed plan track
in_step "$player"
[ "$(names "$player/crates.txt" | tail -n 1)" = example ] || differs "$called: puts lines behind the example's"

# Behind the comments of a crates.txt, before the crates that are there, whatever is missing of a crate.
mkdir -p "$room/other/crates/own/src" "$room/other/crates"
cp -R crates/tree "$room/other/crates/tree"
rm -rf "$room/other/crates/tree/must-fail"
printf '# Mine.\n\nown: bits # and this\nrefusals :\n' >"$room/other/crates.txt"
vendor "$room/other" bits
copied refusals window bits
printf '# Mine.\n\nown: bits # and this\nrefusals :\ntree: refusals\nwindow: tree\nbits: refusals tree window\n' | cmp -s - "$room/other/crates.txt" ||
    differs "$called: does not leave and add lines as it should: $(cat "$room/other/crates.txt")"
printf '# Mine.\n\nown: bits # and this\n' >"$room/other/crates.txt"
vendor "$room/other" bits
copied
printf '# Mine.\n\nrefusals:\ntree: refusals\nwindow: tree\nbits: refusals tree window\nown: bits # and this\n' | cmp -s - "$room/other/crates.txt" ||
    differs "$called: does not add lines before the crate that is there: $(cat "$room/other/crates.txt")"

# The whole library, from another folder: every crate that is no program, with nothing missing.
mkdir "$room/whole"
(cd "$room/whole" && "$here/pim" vendor . >"$room/out" 2>"$room/err")
status=$? called='../pim vendor .'
for crate in $(names crates.txt); do [ ! -f "crates/$crate/src/lib.rt" ] || echo "$crate"; done >"$room/library"
# shellcheck disable=SC2046 # a word for each
copied $(cat "$room/library")
in_step "$room/whole"
kit=$(rt doc)
for crate in $(sed 's/^[^:]*://' "$room/whole/crates.txt" | tr ' ' '\n' | sort -u); do
    [ -d "$room/whole/crates/$crate" ] || [ -d "${kit%/*}/rlibs/$crate.rlib" ] || differs "$called: $crate is used there, and is missing"
done

# ---- refused
echo '// more' >>"$player/crates/tree/src/lib.rt"
refuses "$player" ': tree' shader
cp crates/tree/src/lib.rt "$player/crates/tree/src/lib.rt"
touch "$player/crates/valid/specs/More.antt"
refuses "$player" ': valid' shader
rm "$player/crates/valid/specs/More.antt"
sed -i 's/^record:.*/record: refusals/' "$player/crates.txt"
refuses "$player" ': record' shader
refuses "$player" "there is no crate 'recorder'" recorder
refuses "$player" "there is no crate 'io'" io
touch "$room/file"
refuses "$room/file" "cannot write to $room/file" bits

finish "the example of README.md is proved in a repository that has its crates by '$line'"
