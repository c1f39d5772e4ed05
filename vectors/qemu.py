"""States on qemu-riscv32: builds the harness, sends it commands, reads its answers."""
import atexit
import os
import shutil
import struct
import subprocess
import tempfile

HERE = os.path.dirname(os.path.abspath(__file__))
built = None
TRAMPOLINE = 0x90000
EBREAK = 0x00100073


def harness():
    global built
    if built is None:
        work = tempfile.mkdtemp(prefix='conformance-')
        atexit.register(shutil.rmtree, work)
        built = os.path.join(work, 'harness')
        here = lambda n: os.path.join(HERE, n)
        clang = ['clang-16', '--target=riscv32-unknown-elf', '-mno-relax', '-c']
        subprocess.run(clang + ['-march=rv32im', '-mabi=ilp32', '-O2', '-ffreestanding', '-fno-builtin', '-Wno-everything', here('harness.c'), '-o', built + '.c.o'], check=True)
        subprocess.run(clang + ['-march=rv32im_zve32x', '-mabi=ilp32', here('harness.S'), '-o', built + '.s.o'], check=True)
        subprocess.run(['ld.lld-16', '--image-base=0x30100000', '-z', 'norelro', '-o', built, built + '.s.o', built + '.c.o'], check=True)
    return built


class After:
    """What a run left: signal, its address, pc, x0 to x31, vl, vtype, vxrm, vxsat, v0 to v31 as one run of bytes."""

    def __init__(self, data, vlenb):
        w = struct.unpack('<37I', data[:148])
        self.signal, self.address, self.pc = w[:3]
        self.x = [0] + list(w[3:34])
        self.vl, self.vtype, vcsr = w[34:]
        self.vxrm, self.vxsat = vcsr >> 1 & 3, vcsr & 1
        self.v = data[148:148 + 32 * vlenb]


class Batch:
    """Commands for one process, then its answers. `run` and `dump` give places in the list that `answers` returns."""

    def __init__(self, vlenb, ones):
        self.vlenb, self.ones = vlenb, ones
        self.input, self.sizes = [], []

    def command(self, *words, data=b''):
        self.input.append(struct.pack('<4I', *(list(words) + [0] * (4 - len(words)))) + data)

    def map(self, addr, data, prot):
        size = (len(data) + 4095) & ~4095
        self.command(1, addr, size, prot, data=data + bytes(size - len(data)))

    def poke(self, addr, data):
        self.command(3, addr, len(data), data=data)

    def unmap(self, addr, size):
        self.command(2, addr, size)

    def run(self, pc, vtype, vl, vxrm, vxsat, x, v, trampoline=TRAMPOLINE):
        assert len(v) == 32 * self.vlenb and vl < 1 << 32
        self.command(4, trampoline, pc, data=struct.pack('<35I', vtype, vl, vxrm << 1 | vxsat, *x) + v)
        self.sizes.append(148 + 32 * self.vlenb)
        return len(self.sizes) - 1

    def dump(self, addr, size):
        self.command(5, addr, size)
        self.sizes.append(size)
        return len(self.sizes) - 1

    def answers(self, options=()):
        self.command(0)
        flag = 'true' if self.ones else 'false'
        cpu = ('rv32,v=true,vext_spec=v1.0,elen=32,zba=false,zbb=false,zbc=false,zbs=false,vlen=%d,rvv_ta_all_1s=%s,rvv_ma_all_1s=%s'
               % (self.vlenb * 8, flag, flag))
        done = subprocess.run(['qemu-riscv32', '-cpu', cpu, *options, harness()], input=b''.join(self.input), capture_output=True)
        assert done.returncode == 0, (done.returncode, done.stderr[-500:], len(done.stdout))
        out, at = [], 0
        for n in self.sizes:
            out.append(done.stdout[at:at + n])
            at += n
        assert at == len(done.stdout)
        return [After(o, self.vlenb) if n == 148 + 32 * self.vlenb else o for o, n in zip(out, self.sizes)]
