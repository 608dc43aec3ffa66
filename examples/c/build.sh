#!/bin/sh
# Builds the programs beside this script into crates/program_runs/data, and writes what that crate must print:
# gcc-sparc64-linux-gnu of Debian compiles them for SPARC V8, and clang of Debian one of them.
set -e
cd "$(dirname "$0")"
data=../../crates/program_runs/data

# build PROGRAM SOURCE.. : sources, and options besides
build() {
    program=$1
    shift
    sparc64-linux-gnu-gcc -m32 -mcpu=v8 -msoft-float -nostdlib -ffreestanding -static -fno-pie -no-pie \
        -fno-asynchronous-unwind-tables -fno-stack-protector -O2 -Wall -Wl,--build-id=none -Wl,-z,noexecstack \
        "$@" -o "$data/$program"
    sparc64-linux-gnu-strip --strip-debug -R .comment -R .note.gnu.build-id "$data/$program"
}

for program in word_count queens calculator sieve fractions interpreter long_numbers samples; do
    build "$program" start.S "$program.c"
done
for program in fractions samples; do
    build "${program}_unoptimised" start.S "$program.c" -O0
done
build dispatch start.S dispatch.c
build dispatch_at_o1 start.S dispatch.c -O1
clang --target=sparc-linux-gnu -mcpu=v8 -msoft-float -fintegrated-as -ffreestanding -fno-pic \
    -fno-asynchronous-unwind-tables -O2 -Wall -c fractions.c -o fractions_by_clang.o
build fractions_by_clang start.S fractions_by_clang.o
rm fractions_by_clang.o
# Its code stands in a segment of its own, without the headers.
build branches branches.c -Wl,-z,separate-code -Wl,-z,max-page-size=0x1000
# One that traps is an example.
(data=.. && build tree start.S tree.c)
python3 ../../checks/write_programs.py
