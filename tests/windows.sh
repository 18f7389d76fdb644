#!/bin/sh
# Makes the image of every board in boards/, runs the program `windows` on it and compares with the
# board's stored output. WINDOWS names another program to run; make_board is the one that tests/run
# builds.
set -eu
cd "$(dirname "$0")/.."
windows=${WINDOWS:-crates/windows/out/windows}
make_board=target/tests/release/make_board
mkdir -p target/boards

fail() {
    echo "windows: $1"
    exit 1
}

for program in "$windows" "$make_board"; do
    [ -x "$program" ] || fail "$program is not there"
done
for expected in boards/*.out; do
    [ -f "${expected%.out}.board" ] || fail "$expected has no board"
done

boards=0
for board in boards/*.board; do
    name=$(basename "$board" .board)
    made=target/boards/$name
    "$make_board" "$board" > "$made.image" || fail "$board makes no image"
    # The paper leaves the exit status open; 126 and above are a program that did not run or was
    # stopped by a signal.
    "$windows" < "$made.image" > "$made.out" || [ $? -lt 126 ] ||
        fail "$board: the program was stopped"
    diff "boards/$name.out" "$made.out" || fail "$board: the output differs (< stored, > printed)"
    boards=$((boards + 1))
done
# The stored standard input of the program's own run is B1's image.
cmp crates/windows/stdin target/boards/b1.image ||
    fail "crates/windows/stdin is not the image of boards/b1.board"
echo "windows: $boards boards, equal"
