"""Makes runs.txt: whole runs of small images.

Usage: runs.py > runs.txt. Images are built by clang-16 and ld.lld-16, or put together here. The state after a run, memory included, is that of qemu-riscv32,
the number of steps is that of qemu's log of one instruction at a time; model.py has to say the same. Where a run says `by_hand`, qemu is not asked: the section
is named there.
"""
import atexit
import os
import re
import shutil
import struct
import subprocess
import sys
import tempfile

import model
from assembly import assembled
from qemu import EBREAK, Batch, harness
from table import M32

WORK = None
EXIT, STACK, SP = model.EXIT, 0x2fff0000, 0x30000000

LINK = '''
PHDRS { code PT_LOAD FLAGS(5); data PT_LOAD FLAGS(6); }
SECTIONS {
  . = 0x10000; .text : { *(.text.first) *(.text*) *(.rodata*) } :code
  . = 0x20000; .data : { *(.data*) *(.sdata*) } :data
  .bss : { *(.bss*) *(.sbss*) } :data
  /DISCARD/ : { *(.comment) *(.riscv.attributes) *(.note*) *(.eh_frame*) *(.llvm*) }
}
'''


def built(name, source, language):
    global WORK
    if WORK is None:
        WORK = tempfile.mkdtemp(prefix='conformance-runs-')
        atexit.register(shutil.rmtree, WORK)
    path = os.path.join(WORK, re.sub(r'\W+', '_', name))
    options = {'s': ['-march=rv32im_zve32x'], 'c': ['-march=rv32im', '-O2', '-ffreestanding', '-fno-builtin'],
               'vector c': ['-march=rv32im_zve32x', '-O3', '-mllvm', '-riscv-v-vector-bits-min=128', '-ffreestanding', '-fno-builtin']}[language]
    language = language[-1]
    with open(path + '.' + language, 'w') as f:
        f.write(source)
    with open(path + '.ld', 'w') as f:
        f.write(LINK)
    subprocess.run(['clang-16', '--target=riscv32-unknown-elf', '-mabi=ilp32', '-mno-relax'] + options + ['-c',
                    path + '.' + language, '-o', path + '.o'], check=True)
    subprocess.run(['ld.lld-16', '-n', '-e', 'kernel', '-T', path + '.ld', '-o', path + '.elf', path + '.o'], check=True)
    subprocess.run(['llvm-objcopy-16', '--strip-sections', path + '.elf', path + '.bin'], check=True)
    return open(path + '.bin', 'rb').read()


def asm(text):
    return 's', '.text\n.globl kernel\nkernel:\n' + text.replace(';', '\n') + '\n'


def put_together(segments, entry):
    """An image of the segments (address, bytes, memory size, flags), with no linker."""
    head = 52 + 32 * len(segments)
    out = struct.pack('<4B3B9xHHIIIIIHHHHHH', 0x7f, 0x45, 0x4c, 0x46, 1, 1, 1, 2, 243, 1, entry, 52, 0, 0, 52, 32, len(segments), 0, 0, 0)
    at = head
    for addr, data, size, flags in segments:
        out += struct.pack('<8I', 1, at, addr, addr, len(data), size, flags, 1)
        at += len(data)
    return out + b''.join(s[1] for s in segments)


def words(*ws):
    return struct.pack('<%dI' % len(ws), *ws)


def segments_of(image):
    """The LOAD segments: address, bytes with their zeros, flags."""
    entry, phoff = struct.unpack_from('<II', image, 24)
    for k in range(struct.unpack_from('<H', image, 44)[0]):
        kind, offset, vaddr, _, filesz, memsz, flags, _ = struct.unpack_from('<8I', image, phoff + 32 * k)
        if kind == 1 and memsz:
            yield vaddr, image[offset:offset + filesz] + bytes(memsz - filesz), flags


def entry_of(image):
    return struct.unpack_from('<I', image, 24)[0]


class Run:
    def __init__(self, name, image, args=(), vlenb=16, ones=False, most=100000, by_hand=None):
        self.name, self.vlenb, self.ones, self.most, self.by_hand = name, vlenb, ones, most, by_hand
        self.image = built(name, image[1], image[0]) if isinstance(image, tuple) else image
        self.args = list(args) + [None] * (8 - len(args))

    # The machine at the start ("Start and end" of docs/MACHINE.md).

    def start(self):
        x = [0] * 32
        x[1], x[2] = EXIT, SP
        areas = [(a, d, ('r' if f & 4 else '') + ('w' if f & 2 else '') + ('x' if f & 1 else '')) for a, d, f in segments_of(self.image)]
        areas.append((STACK, bytes(65536), 'rw'))
        at, self.buffers = 0x40000000, []
        for k, a in enumerate(self.args):
            if isinstance(a, int):
                x[10 + k] = a
            elif a is not None:
                x[10 + k] = at
                areas.append((at, a[1], 'rw' if a[0] == 'w' else 'r'))
                self.buffers.append((k, at, a[1]))
                at += (len(a[1]) + 4095) // 4096 * 4096 + 4096
        return x, areas

    def of_model(self):
        x, areas = self.start()
        memory = model.Memory(areas)
        m = model.Machine(self.vlenb, self.ones, entry_of(self.image), x, bytes(32 * self.vlenb), 0x80000000, 0, 0, 0, memory)
        steps = 0
        while True:
            if m.pc == EXIT:
                end = 'ended'
                break
            if steps == self.most:
                end = 'steps'
                break
            try:
                if not memory.permits(m.pc, 4, 'x'):
                    raise model.Fault('FetchFault', m.pc)
                m.step(int.from_bytes(b''.join(bytes([b[o]]) for b, o in (memory.find(m.pc + k, 'x') for k in range(4))), 'little'))
            except model.Fault as e:
                end = 'trapped %s %08x' % e.args
                break
            steps += 1
        return end, steps, self.changes(x, areas, m.pc, m.x, m.v, m.vl, m.vtype, m.vxrm, m.vxsat, [bytes(a[1]) for a in memory.areas])

    def changes(self, x0, areas, pc, x, v, vl, vtype, vxrm, vxsat, after):
        out = ['pc=%08x' % pc] + ['x%d=%08x' % (n, x[n]) for n in range(1, 32) if x[n] != x0[n]]
        for n in range(32):
            part = bytes(v[n * self.vlenb:(n + 1) * self.vlenb])
            if any(part):
                out.append('v%d=%s' % (n, part.hex()))
        out += ['vl=%d' % vl] * (vl != 0) + ['vtype=%08x' % vtype] * (vtype != 0x80000000) + ['vxrm=%d' % vxrm] * (vxrm != 0) + ['vxsat=%d' % vxsat] * (vxsat != 0)
        places = {at: k for k, at, _ in self.buffers}
        for (first, before, _), now in zip(areas, after):
            if now != before and first in places:
                out.append('a%d=%s' % (places[first], now.hex()))
        for (first, before, _), now in zip(areas, after):
            if first in places:
                continue
            k = 0
            while k < len(now):
                if now[k] != before[k]:
                    end = k
                    while end < len(now) and now[end] != before[end]:
                        end += 1
                    out.append('m%08x=%s' % (first + k, now[k:end].hex()))
                    k = end
                k += 1
        return ' '.join(out)

    def of_qemu(self):
        x, areas = self.start()
        b = Batch(self.vlenb, self.ones)
        entry = entry_of(self.image)
        pages = {}
        for first, data, rights in areas:
            # An ecall would be a system call of the harness's: an ebreak stands in its place.
            if 'x' in rights:
                data = b''.join(words(EBREAK) if data[k:k + 4] == words(0x73) else data[k:k + 4] for k in range(0, len(data), 4))
            for k, byte in enumerate(data):
                page = pages.setdefault(first + k & ~4095, [bytearray(4096), 0])
                page[0][first + k & 4095] = byte
                page[1] |= ('r' in rights) | ('w' in rights) << 1 | ('x' in rights) << 2
        for at, (data, prot) in pages.items():
            b.map(at, bytes(data), prot)
        trampoline = (entry & ~4095) + 0x80000
        b.map(trampoline, bytes(4096), 7)
        place = b.run(entry, 0x80000000, 0, 0, 0, x, bytes(32 * self.vlenb), trampoline)
        # Pages that may not be read are not read back; nothing writes them.
        dumps = [b.dump(first, len(data)) if 'r' in rights else None for first, data, rights in areas]
        log = os.path.join(os.path.dirname(harness()), 'log')
        lo, hi = min(a[0] for a in areas if 'x' in a[2]), max(a[0] + len(a[1]) for a in areas if 'x' in a[2])
        answers = b.answers(['-singlestep', '-d', 'exec,nochain', '-dfilter', '0x%x..0x%x' % (lo, hi - 1), '-D', log])
        steps = sum(1 for l in open(log) if l.startswith('Trace'))
        os.remove(log)
        r = answers[place]
        after = [data if d is None else answers[d] for d, (_, data, _) in zip(dumps, areas)]
        for k, (first, data, rights) in enumerate(areas):
            if 'x' in rights:
                assert b''.join(words(EBREAK) if data[j:j + 4] == words(0x73) else data[j:j + 4] for j in range(0, len(data), 4)) == after[k] or d is None
                after[k] = data
        memory = model.Memory(areas)
        pc = r.pc
        if r.signal == 11 and pc == EXIT:
            end = 'ended'
        elif not memory.permits(pc, 4, 'x'):
            # Past the end of the code qemu's page goes on with zeros.
            assert r.signal == 11 or r.signal == 4 and not any(pages[pc & ~4095][0][pc & 4095:])
            end = 'trapped FetchFault %08x' % pc
        elif r.signal == 5:
            end, pc = 'ended', EXIT
        else:
            word = memory.find(pc, 'x')
            word = int.from_bytes(word[0][word[1]:word[1] + 4], 'little')
            if r.signal == 4:
                end = 'trapped Illegal %08x' % word
            else:
                end = 'trapped %s %08x' % ('StoreFault' if word & 0x7f in (0x23, 0x27) else 'LoadFault', r.address)
            steps -= 1
        return end, steps, self.changes(x, areas, pc, r.x, r.v, r.vl, r.vtype, r.vxrm, r.vxsat, after)

    def row(self, *after):
        args = ['-' if a is None else 's%08x' % a if isinstance(a, int) else a[0] + a[1].hex() for a in self.args]
        return ' '.join([str(self.vlenb), 'ones' if self.ones else 'keep', str(self.most), self.image.hex()] + args + ['='] + [str(a) for a in after])


r = lambda data: ('r', bytes(data))
w = lambda data: ('w', bytes(data))
some = lambda n, seed=7: bytes((i * i * seed + 31 * i + seed) % 256 for i in range(n))

ADD_BYTES = asm('''
    beqz a2, end
again: vsetvli t0, a2, e8, m4, ta, ma
    vle8.v v8, (a1); vle8.v v16, (a0); vadd.vv v8, v8, v16; vse8.v v8, (a0)
    add a0, a0, t0; add a1, a1, t0; sub a2, a2, t0
    bnez a2, again
end: ret''')

CLAMP = asm('''
again: vsetvli t0, a1, e8, m2, ta, ma
    vle8.v v8, (a0); vmsgtu.vx v0, v8, a2; vmerge.vxm v8, v8, a2, v0; vmaxu.vx v8, v8, a3; vse8.v v8, (a0)
    add a0, a0, t0; sub a1, a1, t0
    bnez a1, again
    csrr a4, vl; csrr a5, vlenb; csrr a6, vtype
    ret''')

READ_VL = asm('''
    vsetvli t0, a0, e8, m1, ta, ma; csrr a3, vl
    vsetvli x0, a1, e16, m2, ta, ma; csrr a4, vl
    vsetvli t1, x0, e32, m8, tu, mu; csrr a5, vl
    vsetivli x0, 3, e32, m1, ta, ma; csrr a6, vl
    vsetvli x0, x0, e16, mf2, ta, mu; csrr a7, vl
    csrr s2, vtype; csrr s3, vlenb
    ret''')

ARGUMENTS = asm('''
    slli t0, a0, 1; add t0, t0, a1; slli t0, t0, 1; add t0, t0, a2; slli t0, t0, 1; add t0, t0, a3; slli t0, t0, 1; add t0, t0, a4
    slli t0, t0, 1; add t0, t0, a5; slli t0, t0, 1; add t0, t0, a6; slli t0, t0, 1; add t0, t0, a7
    sw a7, -4(sp); sw a6, -8(sp); sh a5, -10(sp); sb a4, -11(sp); sw a3, -17(sp)
    lw s0, -12(sp)
    ret''')

TAILS = asm('''
    li t0, 3
    vsetvli x0, x0, e8, m1, ta, ma
    vsetvli x0, t0, e32, m1, ta, ma; vmv.v.x v8, a0
    vsetivli x0, 2, e16, m2, ta, mu; vadd.vi v10, v10, 5
    vsetivli x0, 5, e8, mf2, ta, ma; vmv.v.i v12, 7; vmsne.vi v0, v12, 7; vmseq.vi v1, v10, 5
    vadd.vi v13, v12, 1, v0.t
    vsetivli x0, 5, e8, mf2, tu, ma; vmv.v.i v14, -3; vadd.vi v15, v12, 1, v0.t
    vsetivli x0, 5, e8, mf2, tu, mu; vadd.vi v16, v12, 1, v0.t; vmsltu.vx v17, v12, a0
    vsetvli x0, x0, e8, mf2, ta, ma; vsetivli x0, 0, e8, m1, ta, ma; vmv.v.i v18, 1; vmseq.vv v19, v1, v1
    ret''')

CALLS = asm('''
    mv s1, ra; addi sp, sp, -16; sw s1, 0(sp)
    call fact
    lw t6, 0(sp); addi sp, sp, 16; jr t6
fact:
    li t0, 2; bgeu a0, t0, more
    li a0, 1; ret
more:
    addi sp, sp, -8; sw ra, 4(sp); sw a0, 0(sp)
    addi a0, a0, -1; call fact
    lw t1, 0(sp); lw ra, 4(sp); addi sp, sp, 8
    mul a0, a0, t1
    ret''')

CRC = ('c', '''
unsigned kernel(const unsigned char *p, unsigned n) {
    unsigned c = ~0u;
    for (unsigned i = 0; i < n; i++) { c ^= p[i]; for (int k = 0; k < 8; k++) c = c & 1 ? c >> 1 ^ 0xedb88320u : c >> 1; }
    return ~c;
}''')

SORT = ('c', '''
void kernel(int *p, int n, int a2, int a3, int a4, int a5, int *swaps, int a7) {
    int k = 0;
    for (int i = 1; i < n; i++)
        for (int j = i; j > 0 && p[j - 1] > p[j]; j--) { int t = p[j]; p[j] = p[j - 1]; p[j - 1] = t; k++; }
    *swaps = k + a3 * a7;
}''')

COUNTS = ('c', '''
static unsigned total = 5; static unsigned char seen[300]; static const short weights[4] = {-1, 300, -20000, 7};
unsigned kernel(const unsigned char *p, unsigned n, unsigned short *out) {
    for (unsigned i = 0; i < n; i++) { seen[p[i]]++; total += weights[p[i] & 3]; }
    for (unsigned i = 0; i < 256; i++) out[i] += seen[i];
    return total;
}''')

DIVIDE = ('c', '''
void kernel(int *p, const int *q, unsigned n) {
    for (unsigned i = 0; i < n; i++) { int a = p[i], b = q[i]; p[i] = (a / b) ^ (a % b) ^ (int)((unsigned)a / (unsigned)b) ^ (int)((unsigned)a % (unsigned)b); }
}''')

HALVES = asm('''
    slli a2, a2, 1
again: vsetvli t0, a2, e8, m2, ta, ma; vle8.v v8, (a0); vle8.v v12, (a1)
    srli t1, t0, 1
    vsetvli x0, t1, e16, m2, ta, ma
    vmul.vv v16, v8, v12; vmacc.vx v16, a3, v8; vsra.vi v16, v16, 3; vmv.v.v v20, v16; vnmsub.vv v20, v8, v12
    vsetvli x0, t0, e8, m2, ta, ma; vse8.v v20, (a0)
    add a0, a0, t0; add a1, a1, t0; sub a2, a2, t0; bnez a2, again
    ret''')

LONG_ADD = asm('''
    vsetvli t0, a2, e8, m1, ta, ma; vle8.v v8, (a0); vle8.v v9, (a1)
    srli t1, t0, 2; vsetvli t2, t1, e32, m1, ta, ma
    vmadc.vv v0, v8, v9; vadc.vvm v10, v8, v9, v0; vmsbc.vx v1, v10, a3; vmsbc.vxm v2, v10, a3, v0; vsbc.vvm v11, v10, v9, v0
    vmerge.vim v12, v11, -7, v0; vdivu.vx v13, v12, a4; vrem.vv v14, v12, v8
    vsetvli x0, a2, e8, m1, ta, ma; vse8.v v14, (a1)
    csrr a5, vl
    ret''')

WIDE_SEW = asm('''
    vsetvli t0, a1, e32, m4, ta, ma
    vle8.v v8, (a0); vse8.v v8, (a2)
    vsetvli t1, t0, e32, m1, tu, ma; vle8.v v9, (a0)
    vsetvli t2, a1, e16, m8, ta, mu; vle8.v v12, (a0); add t3, a2, t0; vse8.v v12, (t3)
    ret''')

CSRS = asm('''
    csrr s0, vl; csrr s1, vtype; csrr s2, vlenb; csrr s3, vcsr
    csrwi vcsr, 7; csrrci s4, vxrm, 1; csrrw s5, vxsat, a0; csrrs s6, vcsr, a1; csrrc s7, vxrm, x0
    vsetvli s8, a2, e16, m1, ta, ma; csrr s9, vl; csrr s10, vtype
    vsetvli s11, a2, e32, mf2, ta, ma; csrr t3, vl; csrr t4, vtype
    ret''')

KEPT = asm('''
    vsetvli x0, x0, e8, m1, ta, ma; csrr s0, vtype
    vsetivli t0, 5, e8, m1, ta, ma; vsetvli x0, x0, e16, m2, tu, mu; csrr s1, vl; csrr s2, vtype
    vsetvli x0, x0, e16, m1, ta, ma; csrr s3, vl; csrr s4, vtype
    vsetvli x0, x0, e16, m1, ta, ma; csrr s5, vtype
    ret''')

COUNT = asm('''
again: addi a0, a0, 1; addi a1, a1, -1; bnez a1, again
    ret''')


DOT = asm('''
    vsetvli t0, x0, e32, m4, ta, ma; vmv.v.i v24, 0
again: vsetvli t0, a2, e8, m1, tu, ma; vle8.v v8, (a0); vle8.v v9, (a1); vwmul.vv v10, v8, v9
    vsetvli x0, x0, e16, m2, tu, ma; vwadd.wv v24, v24, v10
    add a0, a0, t0; add a1, a1, t0; sub a2, a2, t0; bnez a2, again
    vsetvli t0, x0, e32, m4, ta, ma; vmv.s.x v8, x0; vredsum.vs v8, v24, v8; vmv.x.s a0, v8
    ret''')

FILTER = asm('''
again: vsetvli t0, a2, e8, m2, ta, ma; vle8.v v8, (a0); vmsgtu.vx v1, v8, a3; vcompress.vm v12, v8, v1; vcpop.m t1, v1
    vsetvli x0, t1, e8, m2, ta, ma; vse8.v v12, (a1); add a1, a1, t1
    add a0, a0, t0; sub a2, a2, t0; bnez a2, again
    ret''')

LOOK_UP = asm('''
again: vsetvli t0, a1, e8, m2, ta, ma; vle8.v v8, (a0); vluxei8.v v12, (a2), v8
    vmsltu.vi v0, v8, 16; vsoxei8.v v8, (a3), v8, v0.t; vse8.v v12, (a0)
    add a0, a0, t0; sub a1, a1, t0; bnez a1, again
    ret''')

TRANSPOSE = asm('''
    slli t2, a2, 1; slli t3, a3, 1; mv t4, a2
column: mv t5, a0; mv t6, a1; mv a4, a3
again: vsetvli t0, a4, e16, m1, ta, ma; vlse16.v v8, (t5), t2; vse16.v v8, (t6)
    mul a5, t0, t2; add t5, t5, a5; slli a5, t0, 1; add t6, t6, a5; sub a4, a4, t0; bnez a4, again
    addi a0, a0, 2; add a1, a1, t3; addi t4, t4, -1; bnez t4, column
    ret''')

BLEND = asm('''
    csrw vxrm, a4; li t2, 255; sub t2, t2, a2
again: vsetvli t0, a3, e8, m2, ta, ma; vle8.v v8, (a0); vle8.v v10, (a1)
    vwmulu.vx v12, v8, a2; vwmaccu.vx v12, t2, v10; vnclipu.wi v16, v12, 7; vaaddu.vv v18, v8, v10; vssubu.vv v18, v18, v16
    vse8.v v16, (a0); vsse8.v v18, (a5), x0
    add a0, a0, t0; add a1, a1, t0; sub a3, a3, t0; bnez a3, again
    csrr a6, vcsr
    ret''')

ZERO_BYTE = asm('''
    mv a1, a0
again: vsetvli t0, x0, e8, m1, ta, ma; vle8.v v8, (a1); vmseq.vi v1, v8, 0; vfirst.m t1, v1; add a1, a1, t0; bltz t1, again
    sub a1, a1, t0; add a1, a1, t1; sub a0, a1, a0
    vmsbf.m v2, v1; vmsif.m v3, v1; vmsof.m v4, v1; vcpop.m a2, v2; viota.m v5, v3; vmandn.mm v6, v3, v2; vmxnor.mm v7, v6, v4; vid.v v9
    ret''')

RUNNING_SUMS = asm('''
    vsetvli t0, a1, e32, m2, ta, ma; vle32.v v8, (a0); li t1, 1
again: vmv.v.i v12, 0; vslideup.vx v12, v8, t1; vadd.vv v8, v8, v12; slli t1, t1, 1; bltu t1, t0, again
    vse32.v v8, (a0)
    vslide1down.vx v16, v8, t0; vslide1up.vx v18, v8, t1; vredmaxu.vs v20, v8, v16; vredmin.vs v21, v8, v18; vmv.x.s a2, v20; vmv.x.s a3, v21
    ret''')

BACKWARDS = asm('''
    vsetvli t0, a1, e16, m2, ta, ma; vid.v v8; addi t1, t0, -1; vrsub.vx v8, v8, t1
    vsetvli x0, t0, e8, m1, ta, ma; vle8.v v10, (a0); vrgatherei16.vv v11, v10, v8; vse8.v v11, (a0)
    vsetvli x0, t0, e16, m2, ta, ma; vzext.vf2 v12, v11; vsext.vf2 v14, v11; vwsub.vv v16, v12, v14; vnsra.wi v20, v16, 8
    ret''')

WHOLE = asm('''
    vl8re8.v v8, (a0); vmv4r.v v24, v12; vs8r.v v8, (a1); vl2re16.v v2, (a0); vmv1r.v v4, v3; vs1r.v v4, (a2)
    csrr a3, vtype; vadd.vv v8, v8, v8
    ret''')

MIX = ('vector c', '''
typedef unsigned char u8; typedef unsigned short u16;
void kernel(u8 *restrict to, const u8 *restrict a, const u8 *restrict b, unsigned n, unsigned alpha) {
    for (unsigned i = 0; i < n; i++) to[i] = (u8)((a[i] * (u16)alpha + b[i] * (u16)(256 - alpha) + 128) >> 8);
}''')

SCALE_AND_ADD = ('vector c', '''
int kernel(int *restrict y, const short *restrict x, unsigned n, int a) {
    int most = 0;
    for (unsigned i = 0; i < n; i++) { y[i] += a * x[i]; most = y[i] > most ? y[i] : most; }
    return most;
}''')

PICK = ('vector c', '''
unsigned kernel(unsigned *restrict to, const unsigned *restrict from, const unsigned short *restrict which, unsigned n) {
    unsigned sum = 0;
    for (unsigned i = 0; i < n; i++) { to[i] = from[which[i]]; sum += to[i] >> (i & 7); }
    return sum;
}''')

# beqz a1, end; again: vsetvli t0, a1, e32, m1, ta, ma; vle32.v v8, (a0); vadd.vi v8, v8, 1; vse32.v v8, (a0); slli t1, t0, 2; add a0, a0, t1; sub a1, a1, t0;
# bnez a1, again; end: ret
RAISE = (0x02058263, 0x0d05f2d7, 0x02056407, 0x0280b457, 0x02056427, 0x00229313, 0x00650533, 0x405585b3, 0xfe0592e3, 0x00008067)


def of_words(*ws):
    return put_together([(0x10000, words(*ws), 4 * len(ws), 5)], 0x10000)


def with_two_segments(second):
    # lui a1, 0x20; addi a1, a1, 8; vsetivli x0, 16, e8, m1, ta, ma; vle8.v v8, (a1); ecall
    code = words(0x000205b7, 0x00858593, 0xcc087057, 0x02058407, 0x00000073)
    return put_together([(0x10000, code, len(code), 5), (0x20000, bytes(range(16)), 16, 4), (second, bytes(range(16, 32)), 16, 4)], 0x10000)


def vector_kernels():
    # The setting is keep where vmv.s.x leaves a tail, of which qemu has another view (steps.py).
    for vlenb in (16, 32, 64):
        yield Run('dot product', DOT, [r(some(75, 3)), r(some(75, 11)), 75], vlenb)
        yield Run('filter', FILTER, [r(some(120, 5)), w(bytes(128)), 120, 99], vlenb, vlenb == 16)
        yield Run('look up', LOOK_UP, [w(some(90, 3)), 90, r(some(256, 77)), w(bytes(256))], vlenb, vlenb == 32)
        yield Run('transpose', TRANSPOSE, [r(some(2 * 6 * 11)), w(bytes(2 * 6 * 11)), 6, 11], vlenb, True)
        for vxrm in (range(4) if vlenb == 16 else (1,)):
            yield Run('blend, vxrm %d' % vxrm, BLEND, [w(some(70, 3)), r(some(70, 13)), 77, 70, vxrm, w(b'x')], vlenb, vxrm == 1)
        yield Run('zero byte', ZERO_BYTE, [r(bytes(some(100, 2)).replace(b'\0', b'1') + b'\0' + some(3995))], vlenb, vlenb == 16)
        yield Run('running sums', RUNNING_SUMS, [w(some(44, 5)), 11], vlenb, vlenb == 16)
        yield Run('backwards', BACKWARDS, [w(some(13, 5)), 13], vlenb, vlenb == 32)
        yield Run('whole registers', WHOLE, [r(some(8 * vlenb)), w(bytes(8 * vlenb)), w(bytes(vlenb))], vlenb, True)
        yield Run('mix', MIX, [w(bytes(100)), r(some(100, 3)), r(some(100, 11)), 100, 77], vlenb, True)
        yield Run('scale and add', SCALE_AND_ADD, [w(some(4 * 45, 3)), r(some(2 * 45, 11)), 45, 0xffffff85], vlenb)
        yield Run('pick', PICK, [w(bytes(4 * 50)), r(some(4 * 256)), r(struct.pack('<50H', *(37 * k % 256 for k in range(50)))), 50], vlenb)


def small_words():
    yield Run('vill, and then vadd', of_words(0x018672d7, 0x02850407, 0x02880457), [r(some(16))])
    # vsetivli x0, 4, e32, m1, ta, ma; vsse32.v v8, (a0), a1
    yield Run('strided store past a short buffer', of_words(0xcd027057, 0x0ab56427), [w(8 * b'\xff'), 4],
              by_hand='a buffer ends at its size; the pages of qemu are whole (docs/MACHINE.md, Memory)')
    # vsetivli x0, 3, e8, m1, ta, ma; vlm.v v8, (a0); ecall
    for ones in (False, True):
        yield Run('load of a mask', of_words(0xcc01f057, 0x02b50407, 0x00000073), [r(b'\xa5')], 16, ones)
    for n in (0, 1, 1023, 1024):
        yield Run('raise %d words' % n, of_words(*RAISE), [w(some(4096)), n])
    yield Run('raise 9 words', of_words(*RAISE), [w(some(4096)), 9], most=25, by_hand='out of steps: docs/MACHINE.md, Steps and faults; the run to its end stands beside it')
    yield Run('raise 9 words', of_words(*RAISE), [w(some(4096)), 9], most=26)
    yield Run('vector load across two segments', with_two_segments(0x20010), [])
    yield Run('vector load across a gap', with_two_segments(0x20014), [], by_hand='a segment ends at its size; the pages of qemu are whole (docs/MACHINE.md, Memory)')


def everything():
    page = some(4096)
    for vlenb in (16, 32, 64):
        for ones in (False, True):
            yield Run('add bytes', ADD_BYTES, [w(some(150, 3)), r(some(150, 11)), 150], vlenb, ones)
            yield Run('tails', TAILS, [6], vlenb, ones)
        yield Run('read vl', READ_VL, [20, 21], vlenb, True)
        yield Run('clamp', CLAMP, [w(some(77, 5)), 77, 200, 50], vlenb, True)
        yield Run('halves', HALVES, [w(some(84, 5)), r(some(84, 9)), 42, 0xfffffffd], vlenb, False)
        yield Run('long add', LONG_ADD, [r(some(16, 200)), w(some(16, 77)), 16, 0x80000000, 0x1234], vlenb, vlenb == 32)
        yield Run('vle8 at wider SEW', WIDE_SEW, [r(some(64)), 11, w(bytes(64))], vlenb, vlenb == 16)
        yield Run('csrs', CSRS, [2, 4, 100], vlenb, False)
        yield Run('vl kept', KEPT, [], vlenb, by_hand='the keep form with vill or another VLMAX sets vill (docs/DECISIONS.md, Vectors: vset keeps vl)')
    yield Run('arguments', ARGUMENTS, [0x10, 0x23, 0x3001, 0x45678901, 0x56, 0x6abc, 0x789abcde, 0x87654321])
    yield Run('arguments, some', ARGUMENTS, [None, 1, None, r(b'x'), None, w(b''), None, r(bytes(4097))])
    yield Run('calls', CALLS, [10])
    yield Run('crc', CRC, [r(b'123456789'), 9])
    yield Run('sort', SORT, [w(struct.pack('<12i', 5, -3, 0, 99, -2**31, 2**31 - 1, 7, 7, -1, 4, 3, -100)), 12, None, 6, None, None, w(bytes(4)), 0xffffffff])
    yield Run('counts', COUNTS, [r(some(200)), 200, w(some(512))])
    yield Run('divide', DIVIDE, [w(struct.pack('<7I', 7, M32, 0x80000000, 100, 0x80000000, 5, 0)), r(struct.pack('<7I', 0, 3, M32, 0xfffffff9, 0, 7, 0)), 7])
    # Out of steps: qemu has no such count. The same run to its end is asked above or below.
    told = 'out of steps: docs/MACHINE.md, Steps and faults; the run to its end stands beside it'
    yield Run('count', COUNT, [0, 33], most=100)
    yield Run('count', COUNT, [0, 33], most=99, by_hand=told)
    yield Run('count', COUNT, [0, 33], most=98, by_hand=told)
    yield Run('count', COUNT, [0, 33], most=0, by_hand=told)
    yield Run('for ever', asm('addi a0, a0, 1; j kernel'), [0], most=1001, by_hand='out of steps (docs/MACHINE.md, Steps and faults)')
    yield Run('add bytes', ADD_BYTES, [w(some(150, 3)), r(some(150, 11)), 150], 16, False, 17, by_hand=told)
    # Ends.
    yield Run('ecall', asm('addi a0, a0, 2; ecall; addi a0, a0, 3'), [5])
    yield Run('ecall, one step', asm('ecall'), [], most=1)
    yield Run('exit by number', asm('li t0, -16; addi t0, t0, 1; jalr t1, t0, 0'), [])
    # Two pairs of words, which lie 1024 bytes apart, in turn.
    yield Run('words far apart', asm('1: addi a1, a1, -1; j 2f; .zero 1016; 2: addi a0, a0, 1; bnez a1, 1b; ret'), [w(b'abc'), 3])
    # Traps.
    yield Run('nothing', asm('addi a0, a0, 2; .word 0; ret'), [5])
    yield Run('vill at the start', asm('vadd.vv v8, v8, v8; ret'), [])
    yield Run('vill later', asm('vsetivli t0, 3, e8, m1, ta, ma; vmv.v.i v8, 3; vsetvli t1, t0, e32, mf4, ta, ma; vadd.vv v9, v8, v8; ret'), [])
    yield Run('not legal at LMUL 2', asm('vsetivli t0, 3, e8, m2, ta, ma; vadd.vv v8, v8, v9; ret'), [], 32)
    yield Run('legal at LMUL 1, and then at 2 no more',
              asm('vsetivli x0, 1, e8, m1, ta, ma; 1: vadd.vv v1, v2, v3; vsetivli x0, 1, e8, m2, ta, ma; j 1b'), [])
    yield Run('off the end', asm('addi a0, a0, 1; addi a0, a0, 1'), [5])
    yield Run('to the stack', asm('addi sp, sp, -16; li t0, 0x8067; sw t0, 0(sp); jr sp'), [])
    yield Run('to a buffer', asm('jalr s1, 0(a0)'), [w(words(0x8067) + bytes(4092))])
    yield Run('far away', asm('li t0, 0x12345678; jr t0'), [])
    yield Run('misaligned', asm('li t0, 0x10002; jalr t1, 0(t0)'), [], by_hand='a misaligned target (docs/DECISIONS.md, The scalar machine: Jumps)')
    yield Run('misaligned, bit 0', asm('la t0, 1f; jalr t1, 1(t0); 1: jalr t2, 3(t0)'), [], by_hand='a misaligned target (docs/DECISIONS.md, The scalar machine: Jumps)')
    yield Run('load past a buffer', asm('again: lw t0, 0(a0); addi a0, a0, 1024; j again'), [r(page)])
    yield Run('load past a short buffer', asm('again: lbu t0, 0(a0); addi a0, a0, 1; j again'), [r(b'abc')],
              by_hand='a buffer ends at its size; the pages of qemu are whole (docs/MACHINE.md, Memory)')
    yield Run('word past a short buffer', asm('lw t0, 1(a0); ret'), [w(b'abcd')], by_hand='as before')
    yield Run('empty buffer', asm('lbu t0, 0(a1); ret'), [w(b''), w(b'')])
    yield Run('store to what is read-only', asm('lw t0, 8(a0); sw t0, 8(a0); ret'), [r(page)])
    yield Run('store to code', asm('la t0, kernel; sw t0, 0(t0); ret'), [])
    yield Run('load from code', asm('la t0, kernel; lw t1, 0(t0); lbu t2, 5(t0); ret'), [])
    yield Run('below the stack', asm('li t0, 0x2fff0000; sw sp, 0(t0); sw sp, -1(t0); ret'), [])
    yield Run('above the stack', asm('sb a0, -1(sp); lb t0, -1(sp); lb t1, 0(sp); ret'), [0x80])
    yield Run('vector load past a buffer', asm('addi a0, a0, -5; vsetivli t0, 9, e8, m1, ta, ma; li t1, 4096; add a0, a0, t1; vmv.v.i v8, 9; vle8.v v8, (a0); ret'),
              [r(page)], ones=True, by_hand='an access that faults changes nothing; qemu writes the elements before (docs/MACHINE.md, Steps and faults)')
    yield Run('vector store past a buffer', asm('vsetivli t0, 9, e8, m1, ta, ma; li t1, 4091; add t1, a0, t1; vmv.v.i v8, 9; vse8.v v8, (a0); vse8.v v8, (t1); ret'),
              [w(page)], by_hand='an access that faults changes nothing; qemu writes the elements before (docs/MACHINE.md, Steps and faults)')
    yield Run('no elements', asm('vsetivli t0, 0, e8, m1, ta, ma; vle8.v v8, (x0); vse8.v v8, (x0); vmv.v.i v9, 1; ret'), [], ones=True)
    # Segments.
    code = words(0x00052283, 0x00152303, 0x00552023, 0x00008067)   # lw x5, 0(x10); lw x6, 1(x10); sw x5, 0(x10); ret
    yield Run('data past its file part', put_together([(0x10000, code, len(code), 5), (0x7ffc, b'\x11\x22\x33', 64, 6)], 0x10000), [0x7ffd])
    yield Run('across two segments', put_together([(0x10000, code, len(code), 5), (0x5000, some(4096, 3), 4096, 6), (0x6000, some(4096, 5), 4096, 6)], 0x10000), [0x5ffe])
    yield Run('across two segments, one read-only',
              put_together([(0x10000, code, len(code), 5), (0x5000, some(4096, 3), 4096, 6), (0x6000, some(4096, 5), 4096, 4)], 0x10000), [0x5ffe])
    yield Run('high code', put_together([(0x80000000, words(0x00000297, 0x008000ef, 0x00000013, 0x000280e7), 16, 1)], 0x80000000), [], most=20,
              by_hand='out of steps (docs/MACHINE.md, Steps and faults): auipc x5, 0; jal x1, 8; addi x0, x0, 0; jalr x1, 0(x5), round and round')
    yield Run('code in two segments', put_together([(0x11000, words(0x00150513, 0x00150513, 0x00008067), 12, 5), (0x10ffc, words(0x00150513), 4, 5)], 0x10ffc), [7])
    yield Run('a word of code in two segments', put_together([(0x11002, words(0x00150513)[2:] + words(0x00008067), 6, 5), (0x10ffc, words(0x00150513) + words(0x00150513)[:2], 6, 5)],
                                                              0x10ffc), [7])
    buffers = asm('sub t0, a1, a0; sub t1, a2, a1; sub t2, a3, a2; sub t3, a4, a3; sub t4, a5, a4; sub t5, a6, a5; sub t6, a7, a6; sw t6, 0(a7); ret')
    yield Run('where buffers lie', buffers, [w(b''), w(b'1'), r(bytes(4095)), r(bytes(4096)), w(bytes(4097)), r(b''), r(b'3'), w(some(12))])
    yield Run('x0', asm('li t0, 7; add x0, t0, t0; mv a0, x0; lw x0, -4(sp); csrrw x0, vxrm, t0; auipc x0, 5; mul x0, t0, t0; jal x0, 1f; 1: vsetivli x0, 3, e8, m1, ta, ma; csrrsi x0, vcsr, 2; or a1, x0, x0; ret'), [1, 2])
    yield Run('bytes, halves, words', asm('lb t0, 3(a0); lh t1, 3(a0); lhu t2, 5(a0); lbu t3, 4(a0); sb t0, 0(a0); sh t1, 9(a0); sw t1, 13(a0); lw t4, 11(a0); ret'), [w(some(32, 201))])
    yield from vector_kernels()
    yield from small_words()
    yield from later()


def in_segments(text, *more):
    """An image of these words, assembled here, and of further segments."""
    code = words(*assembled(text)[0])
    return put_together([(0x10000, code, len(code), 5), *more], 0x10000)


ADJOINING = (0x20000, bytes(range(1, 17)), 16, 6), (0x20010, bytes(range(17, 33)), 16, 6)
THREE = ADJOINING + ((0x20020, bytes(range(33, 49)), 16, 6),)


def later():
    """Accesses over two segments, rights that stand alone, the stack at its start, masks of 256 bits, and a trap at the last step."""
    told = 'out of steps comes before a trap (docs/MACHINE.md, Steps and faults)'
    yield Run('a trap where no step is left', of_words(0), most=0, by_hand=told)
    yield Run('a trap where no step is left, behind a step', of_words(0x13, 0), most=1, by_hand=told)
    yield Run('a trap where one step is left', of_words(0x13, 0), most=2)
    yield Run('a run that ends where no step is left', of_words(0x13, 0x8067), most=2)
    for most in ((1 << 63) - 1, 1 << 63, (1 << 64) - 1):
        yield Run('at most %d steps' % most, of_words(0x13, 0x8067), most=most)
    for vlenb in (16, 32, 64):
        yield Run('a vector store over two segments', in_segments(
            'vsetivli x0,8,e8,m1; lui a1,0x20; addi a1,a1,12; vmv.v.i v8,7; vse8.v v8,(a1); vle8.v v9,(a1); ret', *ADJOINING), [], vlenb)
        yield Run('a vector load with a stride over two segments', in_segments(
            'vsetivli x0,4,e8,m1; lui a1,0x20; li t0,9; vlse8.v v8,(a1),t0; ret', *THREE), [], vlenb)
        yield Run('a store by indices over two segments', in_segments(
            'vsetivli x0,4,e16,m1; lui a1,0x20; vid.v v8; vsll.vi v8,v8,3; vadd.vi v8,v8,5; vsuxei16.v v8,(a1),v8; ret', *ADJOINING), [], vlenb)
        yield Run('an element over two segments', in_segments('vsetivli x0,1,e32,m1; lui a1,0x20; addi a1,a1,14; vle32.v v8,(a1); ret', *ADJOINING), [], vlenb)
    yield Run('whole registers over two segments', in_segments('lui a1,0x20; vl2re8.v v8,(a1); ret', *ADJOINING))
    yield Run('whole registers stored over two segments', in_segments('lui a1,0x20; vl2re8.v v8,(a1); vmv1r.v v10,v8; addi a1,a1,8; vs1r.v v10,(a1); ret', *ADJOINING))
    one = 'a page of qemu that has a right may be read (docs/MACHINE.md, Memory)'
    yield Run('a load from what may only be executed', put_together([(0x10000, words(*assembled('auipc a0,0; lw t1,0(a0); ret')[0]), 12, 1)], 0x10000), by_hand=one)
    yield Run('a load from what may only be written', in_segments('lui a1,0x20; lw a0,0(a1); ret', (0x20000, b'abcd', 4, 2)), by_hand=one)
    yield Run('a store to what may only be executed', put_together([(0x10000, words(*assembled('auipc a0,0; sw a0,0(a0); ret')[0]), 12, 1)], 0x10000))
    yield Run('a jump to what may only be read', in_segments('lui a1,0x20; jalr x0,0(a1)', (0x20000, words(0x8067), 4, 4)))
    yield Run('a load from what has no right', in_segments('lui a1,0x20; lb a0,0(a1)', (0x20000, b'a', 1, 0)))
    yield Run('the stack is zeros, at its lowest byte too', in_segments('lui a1,0x2fff0; lw a0,0(a1); vsetivli x0,16,e8,m1; vle8.v v8,(a1); ret'))
    zeros = '; '.join('or a0,a0,x%d' % n for n in range(3, 32) if n != 10)
    yield Run('all other registers at the start', in_segments('addi a0,a0,5; %s; ret' % zeros))
    yield Run('a word of which two bytes are there', put_together([(0x10000, words(0x13) + bytes(2), 6, 5)], 0x10000),
              by_hand='a segment ends at its size; the pages of qemu are whole (docs/MACHINE.md, Memory)')
    numbers = 'vsetvli t0,x0,e8,m8,ta,ma; vid.v v16; %s; ret'
    for name, text in (
            ('vfirst at 200', 'li t1,200; vmseq.vx v8,v16,t1; vfirst.m a0,v8'), ('vcpop of 256', 'vmseq.vv v8,v16,v16; vcpop.m a0,v8'),
            ('viota up to 255', 'vmseq.vv v8,v16,v16; viota.m v24,v8'), ('vmsbf up to 200', 'li t1,200; vmseq.vx v8,v16,t1; vmsbf.m v9,v8; vmsif.m v10,v8; vmsof.m v11,v8')):
        for vlenb in (32, 64):
            yield Run(name, in_segments(numbers % text), [], vlenb)
    # At 512 bits the numbers of 512 elements of 8 bits begin again at 256.
    for vlenb in (16, 32, 64):
        yield Run('as many numbers as there are elements', in_segments('vsetvli t0,x0,e8,m8,ta,ma; vid.v v8; vse8.v v8,(a0); ecall'), [w(bytes(512))], vlenb)
    for n in (511, 512, 513):
        yield Run('a length of %d' % n, in_segments('vsetvli a2,a1,e8,m8,ta,ma; vmv.v.i v8,7; vse8.v v8,(a0); vsetvli a3,a1,e8,m4,tu,ma; vadd.vi v8,v8,1; vse8.v v8,(a0); ret'),
                  [w(bytes(513)), n], 64, n == 512)
    yield Run('a gather by bytes reaches 256 elements, one by a register all', in_segments(
        'vsetvli t0,x0,e16,m8,ta,ma; vid.v v8; vsrl.vi v8,v8,1; vsetvli t0,x0,e8,m4,ta,ma; vid.v v16; vrgather.vv v20,v8,v16; vse8.v v20,(a0); li t1,300; vsetvli t0,x0,e8,m8,ta,ma; '
        'vrgather.vx v24,v8,t1; vse8.v v24,(a1); vslideup.vx v24,v8,t1; vslidedown.vx v16,v8,t1; ret'), [w(bytes(512)), w(bytes(512))], 64)


def main():
    rows, hand, checked = [], {}, 0
    for run in everything():
        mine = run.of_model()
        if run.by_hand is None:
            theirs = run.of_qemu()
            if mine[0].split()[:2] == theirs[0].split()[:2] and 'Fault' in mine[0]:
                # The address told is that of the access, and of a vector access that of the element (docs/MACHINE.md, Steps and faults).
                assert int(theirs[0].split()[2], 16) - int(mine[0].split()[2], 16) in range(4), (mine, theirs)
                theirs = (mine[0],) + theirs[1:]
            assert mine == theirs, '%s\n model %s\n qemu  %s' % (run.name, mine, theirs)
            checked += 1
        else:
            hand.setdefault(run.by_hand, []).append(run.name)
        rows.append('# %s%s\n%s' % (run.name, ' (by hand)' if run.by_hand else '', run.row(*mine)))
        print('%-40s %6d %s' % (run.name, mine[1], mine[0]), file=sys.stderr)
    version = subprocess.run(['qemu-riscv32', '--version'], capture_output=True, text=True).stdout.split()[2]
    clang = re.search(r'version (\S+)', subprocess.run(['clang-16', '--version'], capture_output=True, text=True).stdout).group(1)
    print('# Whole runs. Made by vectors/runs.py: images by clang %s and ld.lld-16 or by the script; state and number of steps of qemu-riscv32 %s,' % (clang, version))
    print('# which vectors/model.py shares. %d runs, %d of them by hand.' % (len(rows), len(rows) - checked))
    print('\n'.join(rows))


if __name__ == '__main__':
    main()
