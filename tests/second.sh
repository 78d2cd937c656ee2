#!/usr/bin/env bash
# The second implementation against the proved archive: every answer, field, byte and untouched byte, over more than a million made
# inputs (second/README.md). By hand, `second/run many` takes 100 times as many.
. "$(dirname "$0")/common.bash"
./pim install "$room" >"$room/log" 2>&1 || { cat "$room/log"; exit 1; }
second/build.sh "$room/lib/libpimlasut.a" && second/run
