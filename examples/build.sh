#!/bin/sh
# Builds an example's image: `./build.sh add_bytes` builds add_bytes/add_bytes.elf from add_bytes/add_bytes.s,
# or from add_bytes.c where there is no such file. It needs Debian's packages clang-16 and lld-16. The image is
# static, without compressed instructions and without floating point: RV32IM, with Zve32x in assembly and in C that
# stands beside a native.c. That program is built and run too: it writes the inputs and the
# expected bytes. An image beside whose source a certificate.toml stands gets that certificate as a note.
# Where there is a bare.elf, the image without the note is kept there.
# For C with vector intrinsics a certificate is searched, at each length of a vector register.
set -e
cd "$(dirname "$0")"
kernel=$1
source=$kernel/$kernel.s
options=-march=rv32im_zve32x
if [ ! -e "$source" ]; then
    source=$kernel/$kernel.c
    options="-march=rv32im -O2 -ffreestanding -fno-builtin"
fi
if [ -e "$kernel/native.c" ]; then
    options="-march=rv32im_zve32x -mllvm -riscv-v-vector-bits-min=128 -O3 -ffreestanding -fno-builtin"
    clang-16 -O1 -fno-vectorize "$kernel/native.c" -o "$kernel/native"
    (cd "$kernel" && ./native && rm native)
fi
if grep -q riscv_vector.h "$source"; then
    options="-march=rv32im_zve32x -Os -ffreestanding -fno-builtin"
fi
clang-16 --target=riscv32 $options -mabi=ilp32 -mno-relax -c "$source" -o "$kernel/$kernel.o"
ld.lld-16 -static -no-pie -z max-page-size=4 -z noexecstack --strip-all -T kernel.ld \
    "$kernel/$kernel.o" -o "$kernel/$kernel.elf"
chmod -x "$kernel/$kernel.elf"
rm "$kernel/$kernel.o"
[ ! -e "$kernel/bare.elf" ] || cp "$kernel/$kernel.elf" "$kernel/bare.elf"
if [ -e "$kernel/certificate.toml" ]; then
    ./certify.py "$kernel"
fi
if grep -q riscv_vector.h "$source"; then
    ../tools/certify/certify find "$kernel/$kernel.elf" "$kernel/job.toml" --vlen 128,256,512 -o "$kernel/$kernel.elf"
fi
