#include <stdint.h>
/* names of a message with compression: at most 16 jumps, 128 letters each */
struct name { uint16_t length, next; char text[124]; };
static int expand(const uint8_t *msg, uint32_t n, uint32_t at, struct name *out)
{
    uint32_t used = 0, jumps = 0, next = 0;
    for (;;) {
        if (at >= n) return -1;
        uint32_t c = msg[at++];
        if (c == 0) break;
        switch (c & 0xc0) {
        case 0x00:
            if (at + c > n || used + c + 1 > sizeof out->text) return -2;
            if (used) out->text[used++] = '.';
            for (uint32_t i = 0; i < c; i++) {
                char l = msg[at++];
                out->text[used++] = l >= 'A' && l <= 'Z' ? l + 32 : l;
            }
            break;
        case 0xc0:
            if (at >= n || ++jumps > 16) return -3;
            if (!next) next = at + 1;
            at = (c & 0x3f) << 8 | msg[at];
            break;
        default: return -4;
        }
    }
    out->length = used;
    out->next = next ? next : at;
    return 0;
}
void KERNEL(const uint8_t *msg, uint32_t n, struct name *names, uint32_t max, int32_t *result)
{
    if (n < 12) { *result = -5; return; }
    uint32_t questions = msg[4] << 8 | msg[5], at = 12, k;
    for (k = 0; k < questions && k < max; k++) {
        int r = expand(msg, n, at, &names[k]);
        if (r < 0) { *result = r; return; }
        at = names[k].next + 4;
    }
    *result = k;
}
