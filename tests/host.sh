#!/bin/sh
# Compiles what is written in C against the proved static library and runs it: the first use and the
# examples, compared with their stored outputs, the tests of both layers and of traces, drivers that
# must compile or must not, a library whose board is another than the header's, what reaches the
# library in a special cycle, and calls that are lent overlapping memory. The sanitizers see the C,
# not the library. One board is made by make_board, which tests/run builds.
set -eu
cd "$(dirname "$0")/.."
mkdir -p target/host
b1=crates/windows/stdin
flags="-std=c99 -Wall -Wextra -Wpedantic -Werror -Ihost"
checks="-g -fsanitize=address,undefined -fno-sanitize-recover=all"

fail() {
    echo "host: $1"
    exit 1
}

# build NAME FLAGS SOURCE ..: the program target/host/NAME.
build() {
    program=target/host/$1 more=$2
    shift 2
    cc $flags $more "$@" host/pci_bios.c crates/bios/out/libbios.a -o "$program"
}

# same NAME IMAGE STORED ARGUMENT ..: what target/host/NAME prints for a board, and that it ends
# with status 0.
same() {
    name=$1 image=$2 stored=$3 status=0
    shift 3
    target/host/"$name" "$@" < "$image" > target/host/"$name".out || status=$?
    diff "$stored" target/host/"$name".out ||
        fail "the output of $name differs (< stored, > printed)"
    [ $status = 0 ] || fail "$name ended with status $status"
}

# example NAME IMAGE SOURCE ..: the example of that name, plain and with sanitizers, recorded and
# not.
example() {
    made=$1 board=$2 output=host/examples/$1.out
    shift 2
    set -- "host/examples/$made.c" "$@" host/pci_driver.c host/pci_trace.c
    build "$made" "" "$@"
    same "$made" "$board" "$output"
    same "$made" "$board" "$output" "target/host/$made.trace"
    build "$made-checked" "$checks" "$@"
    same "$made-checked" "$board" "$output" "target/host/$made-checked.trace"
    cmp "target/host/$made.trace" "target/host/$made-checked.trace"
    echo "host: $made, equal, plain and with sanitizers, recorded and not"
}

# aborts PROGRAM ARGUMENT: that it does, with status 134.
aborts() {
    status=0
    (ulimit -c 0; target/host/"$1" "$2"; exit $?) > target/host/"$1".out 2>&1 || status=$?
    [ $status = 134 ] || fail "$1 $2 ended with status $status"
}

build first "" host/first.c
same first "$b1" host/first.out
echo "host: first use from C, equal"

example incident "$b1" host/examples/sizer.c
sizers=target/host/sizers.image
target/tests/release/make_board boards/sizers.board > "$sizers" || fail "no board of two sizers"
example two_drivers "$sizers" host/examples/sizer.c host/examples/sizer_draft.c host/pci_cookie.c

glue="host/tests/check.c host/tests/test_*.c host/tests/by_width*.c host/tests/rerun.c"
glue="$glue host/pci_driver.c host/pci_cookie.c host/pci_trace.c"
traces="target/host/incident.trace target/host/two_drivers.trace"
for kind in glue glue-checked; do
    if [ $kind = glue ]; then build $kind "" $glue; else build $kind "$checks" $glue; fi
    target/host/$kind $traces < "$b1" > target/host/$kind.out || {
        echo "host: tests of the calls from C ($kind)"
        cat target/host/$kind.out
        exit 1
    }
done
counts=$(tail -n 1 target/host/glue.out)
echo "host: the calls from C and their traces, $counts, plain and with sanitizers"

# with_types LONG DRIVER: a driver's source that has its own types, compiled.
with_types() {
    {
        echo "typedef $1 LONG; typedef unsigned $1 ULONG;"
        echo "typedef unsigned short UWORD; typedef unsigned char UBYTE;"
        echo "#define PCI_DRIVER_TYPES"
        echo "#include \"host/examples/$2.c\""
    } > target/host/types.c
    cc $flags -I. -c target/host/types.c -o target/host/types.o
}
for driver in sizer sizer_draft; do
    with_types int $driver || fail "$driver's own types were refused"
    ! with_types "long long" $driver 2> target/host/types.out || fail "types of 64 bits were taken"
done
echo "host: a driver's own types of 32 bits are taken, of 64 bits are not"

# in_edition VALUE: a source that includes pci_driver.h with this edition, compiled.
in_edition() {
    echo '#include "pci_driver.h"' | cc $flags "-DPCI_DRIVER_EDITION=$1" -fsyntax-only -x c -
}
for edition in 1 2; do
    in_edition $edition || fail "PCI_DRIVER_EDITION $edition was refused"
done
for edition in "" 0 3 0x102 -1 4294967297; do
    ! in_edition "$edition" 2> target/host/edition.out ||
        fail "PCI_DRIVER_EDITION '$edition' was taken"
    grep -qF 'PCI_DRIVER_EDITION is 1 (draft 1.9) or 2 (the later text)' target/host/edition.out ||
        fail "PCI_DRIVER_EDITION '$edition', no message"
done
# A program may be compiled with one edition as a whole; the layer is the same in it.
for source in pci_driver pci_cookie; do
    for edition in 1 2; do
        cc $flags -DPCI_DRIVER_EDITION=$edition -c host/$source.c -o target/host/edition-$edition.o
    done
    cmp target/host/edition-1.o target/host/edition-2.o || fail "$source.c depends on the edition"
done
echo "host: the editions 1 and 2 are taken, no other, and the layer is the same in both"

# The test's test_part_bytes stands in for the library's bios_part_bytes and has the part of that
# number longer than it is; with `none` the load must go on.
build layout "-DNDEBUG -Dbios_part_bytes=test_part_bytes" host/tests/layout.c
target/host/layout none || fail "the layout of the board was refused"
for part in 0 1 2 3 4 5 6 7; do
    aborts layout $part
    grep -q '^pci_load: .* bytes in pci_bios.h and .* in the library$' target/host/layout.out ||
        fail "part $part, no message"
done
echo "host: a library whose board has another layout, caught for each part"

# The test's test_special_cycle stands in for the library's bios_special_cycle.
build passed -Dbios_special_cycle=test_special_cycle host/tests/passed.c host/pci_driver.c
target/host/passed || fail "the arguments of a special cycle do not reach the library"
echo "host: a special cycle's arguments reach the library"

# Each call must abort; status 0 says that it came back, 2 that there is no call of that number.
build overlap "" host/tests/overlap.c
build overlap-release -DNDEBUG host/tests/overlap.c
target/host/overlap 0 || fail "memory that is apart was refused"
calls=26
for call in $(seq $calls); do
    aborts overlap "$call"
done
echo "host: $calls calls that are lent overlapping memory, all caught"

# What the pages say, tried.
sh tests/page.sh README.md docs/DRIVERS.md docs/TRACE.md
