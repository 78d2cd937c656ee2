# What the scripts in tests/ share. Each sources it first, and is then in the repository's root, has a temporary folder, $room, and no
# standard input.
set -uo pipefail
export LC_ALL=C
cd "$(dirname "${BASH_SOURCE[0]}")/.." || exit 1
exec </dev/null
here=$PWD me=tests/${0##*/}
room=$(mktemp -d) || exit 1
trap 'rm -rf "$room"' EXIT

failures=0
differs() {
    printf '%s: %s\n' "$me" "$*"
    failures=$((failures + 1))
}
stop() {
    printf '%s: %s\n' "$me" "$*"
    exit 1
}
# The end of a test: its one line, or that it failed.
finish() { # WHAT IS SO
    [ "$failures" -eq 0 ] || stop "$failures things differ"
    printf '%s: %s\n' "$me" "$*"
}

# Stops where a program is not built.
programs() { # NAME...
    local name
    for name; do
        [ -f "crates/$name/out/$name" ] || stop "there is no crates/$name/out/$name: rt ci proves and builds it, and so does rt run in crates/$name"
    done
}

# Installs a command that is missing, and says so.
needs() { # COMMAND PACKAGE...
    ! command -v "$1" >/dev/null || return 0
    printf '%s: there is no %s; installing with apt-get: %s\n' "$me" "$1" "${*:2}"
    { apt-get update && apt-get install -y "${@:2}"; } >"$room/apt" 2>&1 || stop "that failed: $(tail -n 3 "$room/apt")"
}

# Runs a session: lines '$ COMMAND', each with what it prints below. One shell runs them all, and what comes out has to be the text.
session() { # NAME FILE
    local line
    while IFS= read -r line; do
        [ "${line#'$ '}" = "$line" ] || printf "printf '%%s\\\\n' %q\n%s\n" "$line" "${line#'$ '}"
    done <"$2" >"$room/session"
    [ -s "$room/session" ] || differs "$1: there is no line '\$ COMMAND'"
    bash "$room/session" </dev/null >"$room/said" 2>&1
    cmp -s "$2" "$room/said" || differs "$1: what comes out is not the text:"$'\n'"$(diff "$2" "$room/said")"
}

# Takes the blocks of code out of README.md: files in $room/blocks, each named by the line at which its block begins. A block is lines
# that begin with four spaces, which are taken off, and the empty lines between them.
readme_blocks() {
    mkdir -p "$room/blocks"
    awk -v folder="$room/blocks" '
        /^    / { if (!file) file = sprintf("%s/%04d", folder, NR); printf "%s%s\n", gap, substr($0, 5) >file; gap = ""; next }
        /^$/ && file { gap = gap "\n"; next }
        { file = gap = "" }' README.md
    ! grep -n '^ *```' README.md || stop "README.md has a fence: its blocks are lines that begin with four spaces"
}
