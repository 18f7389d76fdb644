#!/bin/sh
# Performs the lists of calls in tests/cases/ by the program `replay` and compares what it prints
# with the answers that stand beside the calls. The images are those that windows.sh makes of
# boards/; REPLAY names another program to run.
set -eu
cd "$(dirname "$0")/.."
replay=${REPLAY:-crates/replay/out/replay}
make_trace=target/tests/release/make_trace
made=target/cases
mkdir -p "$made"

fail() {
    echo "cases: $1"
    exit 1
}

calls=0
for source in tests/cases/*.calls; do
    at=$made/$(basename "$source" .calls)
    grep -v '^#' "$source" | grep ' = ' > "$at.expected" || fail "$source has no answers"
    [ "$(grep -c '^[a-z_]*(' "$source")" = "$(wc -l < "$at.expected")" ] ||
        fail "$source: a call has no answer"
    calls=$((calls + $(wc -l < "$at.expected")))
    echo "$(wc -l < "$at.expected") calls" >> "$at.expected"
    "$make_trace" < "$source" > "$at.trace" || fail "$source makes no trace"
    "$replay" < "$at.trace" > "$at.out" || fail "$source: the program ended with status $?"
    diff "$at.expected" "$at.out" || fail "$source: the output differs (< stands there, > printed)"
done
echo "cases: $calls calls, equal"
