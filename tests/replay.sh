#!/bin/sh
# Makes the trace of every list of calls in tests/replay/, runs the program `replay` on it and
# compares with the stored output. REPLAY names another program to run; the makers are those that
# tests/run builds.
set -eu
cd "$(dirname "$0")/.."
replay=${REPLAY:-crates/replay/out/replay}
makers=target/tests/release
made=target/replay
mkdir -p "$made"

fail() {
    echo "replay: $1"
    exit 1
}

# same STORED TRACE: what the program prints for a trace, and that it ends with status 0.
same() {
    "$replay" < "$2" > "$made/printed" || fail "$2: the program ended with status $?"
    diff "$1" "$made/printed" || fail "$2: the output differs (< stored, > printed)"
}

for program in "$replay" "$makers/make_trace" "$makers/make_board"; do
    [ -x "$program" ] || fail "$program is not there"
done
"$makers/make_board" boards/full.board > "$made/full.image"

traces=0
for source in tests/replay/*.calls; do
    name=$(basename "$source" .calls)
    stored=tests/replay/$name.out
    [ "$name" != b1 ] || stored=crates/replay/stdout
    "$makers/make_trace" < "$source" > "$made/$name.trace" || fail "$source makes no trace"
    same "$stored" "$made/$name.trace"
    traces=$((traces + 1))
done
# What is none, though it is long enough: B1's image.
same tests/replay/opening-cut.out crates/windows/stdin
# A trace but for the last letter of its magic.
printf 'PCIU\0\0\0\1\0\0\0\0' > "$made/magic.trace"
same tests/replay/opening-cut.out "$made/magic.trace"
# The stored standard input of the program's own run is B1's trace.
cmp crates/replay/stdin "$made/b1.trace" ||
    fail "crates/replay/stdin is not the trace of tests/replay/b1.calls"
# A source that is none ends the maker with a fault.
! echo 'reset' | "$makers/make_trace" > "$made/none.trace" 2> "$made/none.fault" ||
    fail "make_trace takes a source that is none"
[ "$(cat "$made/none.fault")" = 'make_trace: 1: `reset` is no statement' ] ||
    fail "make_trace says: $(cat "$made/none.fault")"
echo "replay: $traces traces, equal"
