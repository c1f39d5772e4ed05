/* Witten, Neal and Cleary, 16 bits, adaptive order 0 of bits with bits to follow */
#include <stdint.h>
#define TOP 0xffffu
#define FIRST 0x4000u
#define HALF 0x8000u
#define THIRD 0xc000u
struct encoder { uint32_t low, high, follow; uint8_t *out; uint32_t buffer, room; };
static void bit_out(struct encoder *e, uint32_t bit)
{
    e->buffer = e->buffer << 1 | bit;
    if (--e->room == 0) {
        *e->out++ = e->buffer;
        e->room = 8;
    }
}
static void plus_follow(struct encoder *e, uint32_t bit)
{
    bit_out(e, bit);
    while (e->follow > 0) {
        bit_out(e, !bit);
        e->follow--;
    }
}
static void encode(struct encoder *e, uint32_t lo, uint32_t hi, uint32_t total)
{
    uint32_t range = e->high - e->low + 1;
    e->high = e->low + range * hi / total - 1;
    e->low = e->low + range * lo / total;
    for (;;) {
        if (e->high < HALF) plus_follow(e, 0);
        else if (e->low >= HALF) {
            plus_follow(e, 1);
            e->low -= HALF;
            e->high -= HALF;
        } else if (e->low >= FIRST && e->high < THIRD) {
            e->follow++;
            e->low -= FIRST;
            e->high -= FIRST;
        } else break;
        e->low = 2 * e->low;
        e->high = 2 * e->high + 1;
    }
}
void KERNEL(uint8_t *out, const uint8_t *in, uint32_t n, uint32_t *size)
{
    struct encoder e = { 0, TOP, 0, out, 0, 8 };
    uint16_t ones[256], all[256];
    for (int i = 0; i < 256; i++) { ones[i] = 1; all[i] = 2; }
    for (uint32_t i = 0; i < n; i++) {
        uint32_t node = 1;
        for (int k = 7; k >= 0; k--) {
            uint32_t bit = in[i] >> k & 1, zeros = all[node] - ones[node];
            if (bit) encode(&e, zeros, all[node], all[node]);
            else encode(&e, 0, zeros, all[node]);
            ones[node] += bit;
            if (++all[node] == 1024) {
                all[node] >>= 1;
                ones[node] = (ones[node] + 1) >> 1;
                if (ones[node] == all[node]) all[node]++;
            }
            node = node << 1 | bit;
        }
    }
    e.follow++;
    plus_follow(&e, e.low < FIRST ? 0 : 1);
    while (e.room != 8) bit_out(&e, 0);
    *size = e.out - out;
}
