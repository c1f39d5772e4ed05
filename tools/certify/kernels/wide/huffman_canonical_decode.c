#include <stdint.h>
/* a table of lengths, first codes and symbols; most significant bit first */
struct canon { uint32_t first[17], offset[17], count[17]; uint8_t symbol[256]; };
static int build(struct canon *t, const uint8_t *lens)
{
    for (int l = 0; l <= 16; l++) t->count[l] = 0;
    for (int s = 0; s < 256; s++) t->count[lens[s] & 15]++;
    t->count[0] = 0;
    uint32_t code = 0, at = 0;
    for (int l = 1; l <= 16; l++) {
        code <<= 1;
        t->first[l] = code;
        t->offset[l] = at;
        code += t->count[l];
        at += t->count[l];
        if (code > 1u << l) return 0;
    }
    uint32_t next[17];
    for (int l = 1; l <= 16; l++) next[l] = t->offset[l];
    for (int s = 0; s < 256; s++)
        if (lens[s] & 15) t->symbol[next[lens[s] & 15]++] = s;
    return 1;
}
void KERNEL(uint8_t *out, const uint8_t *in, uint32_t n, const uint8_t *lens, uint32_t *written)
{
    struct canon t;
    uint32_t have = 0, bits = 0, ip = 0, op = 0;
    *written = 0;
    if (!build(&t, lens)) return;
    while (op < 4096) {
        uint32_t code = 0;
        int l;
        for (l = 1; l <= 16; l++) {
            if (have == 0) {
                if (ip == n) goto end;
                bits = in[ip++];
                have = 8;
            }
            code = code << 1 | (bits >> --have & 1);
            if (code - t.first[l] < t.count[l]) {
                out[op++] = t.symbol[t.offset[l] + code - t.first[l]];
                break;
            }
        }
        if (l > 16) break;
    }
end:
    *written = op;
}
