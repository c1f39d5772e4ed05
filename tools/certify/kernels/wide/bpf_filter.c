/* classic BPF over packets of 64 bytes: net/bpf_filter.c */
#include <stddef.h>
#include <stdint.h>
struct bpf_insn { uint16_t code; uint8_t jt, jf; uint32_t k; };
#define EXTRACT_SHORT(p) ((uint16_t)((uint16_t)(p)[0] << 8 | (p)[1]))
#define EXTRACT_LONG(p) ((uint32_t)(p)[0] << 24 | (uint32_t)(p)[1] << 16 | (uint32_t)(p)[2] << 8 | (p)[3])

static uint32_t bpf_filter(const struct bpf_insn *pc, const struct bpf_insn *end, const uint8_t *p, uint32_t buflen)
{
    uint32_t A = 0, X = 0, k;
    uint32_t mem[16] = { 0 };
    for (--pc; ; ) {
        ++pc;
        if (pc >= end) return 0;
        switch (pc->code) {
        default: return 0;
        case 0x06: return pc->k;                             /* ret #k */
        case 0x16: return A;                                 /* ret a */
        case 0x20:                                           /* ld [k] */
            k = pc->k;
            if (k > buflen || 4 > buflen - k) return 0;
            A = EXTRACT_LONG(&p[k]);
            continue;
        case 0x28:                                           /* ldh [k] */
            k = pc->k;
            if (k > buflen || 2 > buflen - k) return 0;
            A = EXTRACT_SHORT(&p[k]);
            continue;
        case 0x30:                                           /* ldb [k] */
            k = pc->k;
            if (k >= buflen) return 0;
            A = p[k];
            continue;
        case 0x80: A = buflen; continue;                     /* ld #len */
        case 0x48:                                           /* ldh [x+k] */
            k = X + pc->k;
            if (X > buflen || pc->k > buflen - X || 2 > buflen - k) return 0;
            A = EXTRACT_SHORT(&p[k]);
            continue;
        case 0x50:                                           /* ldb [x+k] */
            k = X + pc->k;
            if (pc->k >= buflen || X >= buflen - pc->k) return 0;
            A = p[k];
            continue;
        case 0xb1:                                           /* ldx 4*([k]&0xf) */
            k = pc->k;
            if (k >= buflen) return 0;
            X = (p[k] & 0xf) << 2;
            continue;
        case 0x00: A = pc->k; continue;
        case 0x01: X = pc->k; continue;
        case 0x60: A = mem[pc->k & 15]; continue;
        case 0x61: X = mem[pc->k & 15]; continue;
        case 0x02: mem[pc->k & 15] = A; continue;
        case 0x03: mem[pc->k & 15] = X; continue;
        case 0x05: pc += pc->k; continue;
        case 0x25: pc += (A > pc->k) ? pc->jt : pc->jf; continue;
        case 0x35: pc += (A >= pc->k) ? pc->jt : pc->jf; continue;
        case 0x15: pc += (A == pc->k) ? pc->jt : pc->jf; continue;
        case 0x45: pc += (A & pc->k) ? pc->jt : pc->jf; continue;
        case 0x1d: pc += (A == X) ? pc->jt : pc->jf; continue;
        case 0x0c: A += X; continue;
        case 0x1c: A -= X; continue;
        case 0x2c: A *= X; continue;
        case 0x3c: if (X == 0) return 0; A /= X; continue;
        case 0x5c: A &= X; continue;
        case 0x4c: A |= X; continue;
        case 0x04: A += pc->k; continue;
        case 0x14: A -= pc->k; continue;
        case 0x54: A &= pc->k; continue;
        case 0x44: A |= pc->k; continue;
        case 0x64: A <<= pc->k & 31; continue;
        case 0x74: A >>= pc->k & 31; continue;
        case 0x84: A = -A; continue;
        case 0x07: X = A; continue;
        case 0x87: A = X; continue;
        }
    }
}

void KERNEL(const struct bpf_insn *prog, uint32_t len, const uint8_t *packets, uint32_t n, uint32_t *verdicts)
{
    for (uint32_t i = 0; i < n; i++)
        verdicts[i] = bpf_filter(prog, prog + len, packets + i * 64, 64);
}
