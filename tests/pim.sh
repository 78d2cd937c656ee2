#!/usr/bin/env bash
# The launcher: what ./pim prints, where it prints it, and its status; what it does with an input that cannot be read; that it builds a
# program, or the archive, when that is due and only then; and what it installs. (tests/vendor.sh has ./pim vendor.)
. "$(dirname "$0")/common.bash"
programs show unit why
real=$(command -v rt) || stop "there is no command rt"

# Runs a command and keeps its output, its errors and its status, for the expectations below to judge.
called=''
try() { # COMMAND...
    called=$*
    "$@" >"$room/out" 2>"$room/err"
    status=$?
}
status_is() { [ "$status" -eq "$1" ] || differs "$called: status $status, and not $1; on standard error: $(cat "$room/err")"; }
prints() { cmp -s "$room/out" "$1" || differs "$called: does not print what $1 has, but: $(cat "$room/out")"; }
prints_nothing() { [ ! -s "$room/out" ] || differs "$called: prints on standard output: $(cat "$room/out")"; }
prints_word() { grep -qw -- "$1" "$room/out" || differs "$called: does not name $1"; }
says_nothing() { [ ! -s "$room/err" ] || differs "$called: says on standard error: $(cat "$room/err")"; }
says() { grep -qF -- "$1" "$room/err" || differs "$called: does not say '$1', but: $(cat "$room/err")"; }
says_lines() { [ "$(wc -l <"$room/err")" -eq "$1" ] || differs "$called: says not exactly $1 lines: $(cat "$room/err")"; }

# A program is run. That nothing is said shows too that it is not built again: it is as new as the sources.
try ./pim show <samples/one-block.t35
status_is 0
prints samples/one-block.listing
says_nothing
try ./pim show <samples/byte-left-over.t35
status_is 1
prints samples/byte-left-over.listing
says_nothing
try ./pim show </dev/null
status_is 1
prints samples/cut-short.listing
try ./pim unit <samples/one-message.unit
status_is 0
prints samples/one-message.listing
says_nothing
try ./pim unit <samples/message-past-end.unit
status_is 1
prints samples/message-past-end.listing
says_nothing
try ./pim unit </dev/null
status_is 1
prints samples/other-unit-type.listing
try ./pim why <samples/out-of-order.t35
status_is 1
prints samples/out-of-order.why
says_nothing
try ./pim why <samples/one-block.t35
status_is 0
prints samples/one-block.why
says_nothing

# The input may be a file that is named, and any kind of it.
try ./pim show samples/one-block.t35
status_is 0
prints samples/one-block.listing
says_nothing
try ./pim unit samples/message-past-end.unit
status_is 1
prints samples/message-past-end.listing
try ./pim why samples/out-of-order.t35
status_is 1
prints samples/out-of-order.why
try ./pim show /dev/null
status_is 1
prints samples/cut-short.listing
mkfifo "$room/pipe" || exit 1
timeout 10 sh -c "cat samples/one-block.t35 >'$room/pipe'" &
try ./pim show "$room/pipe"
status_is 0
prints samples/one-block.listing
cp samples/one-block.t35 "$room/-a file"
cd "$room" || exit 1
try "$here/pim" show '-a file'
status_is 0
prints "$here/samples/one-block.listing"
cd "$here" || exit 1

# What cannot be read is not refused, but said. /proc/self/mem is a file whose first byte nobody can read.
cannot() { # WHAT IS SAID
    status_is 2
    prints_nothing
    says "$1"
    says_lines 1
}
for program in show unit why; do
    try ./pim "$program" samples
    cannot "'samples' cannot be read: it is a directory"
    try ./pim "$program" <samples
    cannot 'standard input cannot be read: it is a directory'
done
try ./pim show samples/none.t35
cannot "there is no file 'samples/none.t35'"
try ./pim show ''
cannot "there is no file ''"
try ./pim show /proc/self/mem
cannot "'/proc/self/mem' cannot be read: reading it fails"
try ./pim show </proc/self/mem
cannot 'standard input cannot be read: reading it fails'
try ./pim show <&-
cannot 'standard input cannot be read: it is closed'
try ./pim show 0>"$room/written"
cannot 'standard input cannot be read: it is open for writing alone'
if [ "$(id -u)" -ne 0 ]; then
    cp samples/one-block.t35 "$room/secret"
    chmod a-r "$room/secret"
    try ./pim show "$room/secret"
    cannot 'its permissions forbid it'
fi

# from other folders, by a path from there, by an absolute path and through a link
cd tests || exit 1
try ../pim show <../samples/one-block.t35
status_is 0
prints "$here/samples/one-block.listing"
cd "$room" || exit 1
try "$here/pim" show <"$here/samples/one-block.t35"
status_is 0
prints "$here/samples/one-block.listing"
ln -s "$here/pim" "$room/link"
try ./link show <"$here/samples/byte-left-over.t35"
status_is 1
prints "$here/samples/byte-left-over.listing"
cd "$here" || exit 1

# help
for words in '' help --help; do
    # shellcheck disable=SC2086 # no words at all is one of the cases
    try ./pim $words
    status_is 0
    prints_word show
    prints_word unit
    prints_word why
    prints_word 'help refusals'
    prints_word install
    prints_word vendor
    says_nothing
done

# The refusals: the rows of the table, one for each number that a sample gets, no line wider than the terminal.
try ./pim help refusals
status_is 0
says_nothing
cp "$room/out" "$room/refusals"
rows=$(sed -n '/^<!-- refusals -->/,/^<!-- end of refusals -->/p' docs/REFERENCE.md | grep -c '^| *[0-9]')
[ "$(grep -c '^ *[0-9][0-9]*  *[^ ]' "$room/out")" -eq "$rows" ] || differs "$called: does not print $rows refusals"
for number in $(sed -n 's/^result=//p' samples/*.listing | sort -u); do
    [ "$number" = 0 ] || grep -q "^ *$number  *[^ ]" "$room/out" || differs "$called: does not print $number"
done
[ "$(awk 'length > 80' "$room/out")" = '' ] || differs "$called: prints a line of more than 80 characters"
try env COLUMNS=50 ./pim help refusals
[ "$(awk 'length > 50' "$room/out")" = '' ] || differs "$called: prints a line of more than 50 characters"
[ "$(tr -s ' \n' '  ' <"$room/out")" = "$(tr -s ' \n' '  ' <"$room/refusals")" ] || differs "$called: prints other words than in 80 columns"
# On a terminal, which ends its lines with a carriage return too, that is its width.
if command -v script >/dev/null; then
    try env -u COLUMNS script -qec 'stty cols 50; ./pim help refusals' /dev/null
    status_is 0
    [ "$(tr -d '\r' <"$room/out" | awk 'length > 50' | wc -l)" -eq 0 ] || differs "$called: prints a line of more than 50 characters"
fi

# words that pim does not know, and too many
for word in shwo s.ow '' 'show|' $'show\nshow'; do
    try ./pim "$word"
    status_is 2
    prints_nothing
    says "'$(head -n 1 <<<"$word")"
done
try ./pim show samples/one-block.t35 samples/one-block.t35
status_is 2
prints_nothing
says 'too many arguments'
says_lines 1
for words in install 'install a b'; do
    # shellcheck disable=SC2086 # words
    try ./pim $words
    cannot 'needs one folder'
done
try ./pim vendor
cannot 'needs the folder of a Rattle repository'
try ./pim help show
status_is 2
prints_nothing
says 'too many arguments'

# Without the toolchain: the folders of PATH, but from one that has an rt, everything else.
without='' count=0
IFS=: read -ra folders <<<"$PATH"
for folder in "${folders[@]}"; do
    if [ -e "$folder/rt" ]; then
        count=$((count + 1))
        mkdir -p "$room/path/$count"
        ln -s "$folder"/* "$room/path/$count/"
        rm "$room/path/$count/rt"
        folder=$room/path/$count
    fi
    without=$without:$folder
done
try env PATH="${without#:}" ./pim show <samples/one-block.t35
called='./pim show without rt'
status_is 2
prints_nothing
says 'toolchain is missing'
says_lines 1
try env PATH="${without#:}" ./pim help
called='./pim help without rt'
status_is 0

# Building, in a small repository of its own with an rt that proves nothing. Like the real one it works on the crate in whose folder it
# is called, says what it has to say on standard error when it runs a program, leaves a program that is there as it is if nothing changed,
# and may fail after it has linked one. It gives the program that it runs all of the standard input that it gets: the crate's file stdin,
# to show that it gets none of the input of ./pim.
mkdir -p "$room/bin" "$room/repository/crates/show/src" "$room/repository/crates/pimlasut/src"
cp pim "$room/repository/pim"
printf 'show:\npimlasut staticlib:\n' >"$room/repository/crates.txt"
echo 'fn main() {}' >"$room/repository/crates/show/src/main.rt"
cp crates/show/stdin crates/show/stdout "$room/repository/crates/show"
: >"$room/repository/crates/pimlasut/src/lib.rt"
cat >"$room/bin/rt" <<END
#!/bin/sh
[ "\$*" != version ] || exec '$real' version
name=\${PWD##*/}
[ "\$PWD" = '$room/repository/crates/'"\$name" ] && [ "\$#" -eq 1 ] || exit 3
echo called >>'$room/calls'
echo 'what the prover says' >&2
mkdir -p out
case \$1 in
lib)
    [ "\$(wc -c)" -eq 0 ] || exit 3
    [ -e '$room/fails' ] || echo "archive" >out/libpimlasut.a
    ;;
run)
    [ -e out/show ] || cp '$here/crates/show/out/show' out/show
    echo "rt: running out/show" >&2
    '$here/crates/show/out/show'
    [ ! -e '$room/writes' ] || echo 'and more'
    ;;
*) exit 3 ;;
esac
[ ! -e '$room/fails' ] || {
    echo "rt: \$name is not proved" >&2
    exit 1
}
echo "rt: \$name is proved" >&2
END
chmod +x "$room/bin/rt"
: >"$room/calls"
small() { # WHEN CALLS: by then rt has been called so often
    try env PATH="$room/bin:$PATH" "$room/repository/pim" show <samples/one-block.t35
    called="pim show, $1"
    [ "$(wc -l <"$room/calls")" -eq "$2" ] || differs "$called: rt was called $(wc -l <"$room/calls") times by now, and not $2"
}
built() {
    status_is 0
    prints samples/one-block.listing
    says 'the log is target/pim-show.log'
    says 'rt: show is proved'
    says_lines 2
}
not_built() {
    status_is 0
    prints samples/one-block.listing
    says_nothing
}
failed() {
    status_is 2
    prints_nothing
    says 'pim: show was not proved and built: target/pim-show.log says why'
}
small 'first use' 1
built
grep -qF 'what the prover says' "$room/repository/target/pim-show.log" || differs "the log has not all that rt printed"
small 'second use' 1
not_built
touch "$room/repository/crates/show/src/main.rt"
small 'with a newer source' 2
built
small 'after a source that only its time made newer' 2
not_built
touch "$room/repository/crates/show/src/more.rt"
small 'with a new source' 3
built
rm "$room/repository/crates/show/src/more.rt"
small 'with a source removed' 4
built
touch "$room/repository/crates.txt"
small 'with a newer crates.txt' 5
built
mkdir "$room/repository/crates/show/must-fail"
echo >"$room/repository/crates/show/must-fail/one.edit"
small 'with a new must-fail edit' 5
not_built
mkdir "$room/repository/crates/pimlasut/out"
echo >"$room/repository/crates/pimlasut/out/stamp"
small 'with something new that rt made' 5
not_built
touch "$room/repository/crates/show/src/main.rt" "$room/fails"
small 'with a program that fails' 6
failed
small 'with a program that has failed before' 7
failed
rm "$room/fails"
touch "$room/writes"
small 'with a program that writes something else than its stdout' 8
failed
small 'with a program that has written something else before' 9
failed
rm "$room/writes"
small 'with a program that was mended' 10
built
: >"$room/repository/crates/show/out/show"
small 'with a program that says nothing' 10
status_is 2
prints_nothing
says 'pim: show printed no result'
chmod a-x "$room/repository/crates/show/out/show"
small 'with a program that cannot be run' 10
status_is 2
prints_nothing
says 'pim: show could not be run'

# Where target/ cannot be written to, one line says so.
rm "$room/repository/crates/show/out/show"
mkdir "$room/repository/target/pim-show.began"
small 'with a file that it cannot write' 10
cannot "cannot write to $room/repository/target"
mv "$room/repository/target" "$room/target"
touch "$room/repository/target"
small 'without a folder target' 10
cannot "cannot write to $room/repository/target"
rm "$room/repository/target"

# Where there is no table of refusals, one line says so.
try "$room/repository/pim" help refusals
cannot "there is no $room/repository/docs/REFERENCE.md"
mkdir "$room/repository/docs"
sed '/^| *[0-9]/d' docs/REFERENCE.md >"$room/repository/docs/REFERENCE.md"
try "$room/repository/pim" help refusals
cannot "$room/repository/docs/REFERENCE.md has no table of refusals"

# The archive, its header and its pkg-config file, with an archive that is made when it is due.
mkdir "$room/repository/include"
cp include/pimlasut.h "$room/repository/include/pimlasut.h"
installs() { # WHEN CALLS
    try env PATH="$room/bin:$PATH" "$room/repository/pim" install "$room/a/prefix"
    called="pim install, $1"
    prints_nothing
    [ "$(wc -l <"$room/calls")" -eq "$2" ] || differs "$called: rt was called $(wc -l <"$room/calls") times by now, and not $2"
}
installed() {
    status_is 0
    [ "$(cat "$room/a/prefix/lib/libpimlasut.a")" = archive ] || differs "$called: lib/libpimlasut.a is not the archive"
    cmp -s include/pimlasut.h "$room/a/prefix/include/pimlasut.h" || differs "$called: include/pimlasut.h is not the header"
    grep -qx "prefix=$room/a/prefix" "$room/a/prefix/lib/pkgconfig/pimlasut.pc" || differs "$called: lib/pkgconfig/pimlasut.pc has not its prefix"
}
touch "$room/fails"
installs 'with an archive that is not made' 11
status_is 2
says 'pim: pimlasut was not proved and built: target/pim-pimlasut.log says why'
[ ! -e "$room/a" ] || differs "$called: makes the folder"
rm "$room/fails"
installs 'first use' 12
installed
says 'proving and building pimlasut'
rm -r "$room/a"
installs 'second use' 12
installed
says_nothing
touch "$room/repository/crates/show/src/main.rt"
installs 'with a newer source' 13
installed
rm -r "$room/a"
touch "$room/a"
installs 'below a file' 13
cannot "cannot write to $room/a/prefix"

finish 'the launcher runs, refuses and builds as it should'
