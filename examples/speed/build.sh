#!/bin/sh
# Builds the kernels again, for rvvbox (NAME.elf) and as processes of qemu-riscv32 (NAME-COUNT-TIMES.qemu), with Debian's packages clang-16 and lld-16.
set -eu
cd "$(dirname "$0")"
flags='--target=riscv32 -march=rv32im_zve32x -mabi=ilp32 -mno-relax -nostdlib -static -fuse-ld=lld-16 -Wl,--strip-all'
./speed.py --kernels | while read -r name count times; do
    clang-16 $flags -Wl,-e,kernel "$name.s" -o "$name.elf"
    clang-16 $flags "-DCOUNT=$count" "-DTIMES=$times" host.S "$name.s" -o "$name-$count-$times.qemu"
    chmod -x "$name.elf"
done
