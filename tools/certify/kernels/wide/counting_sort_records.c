#include <stdint.h>
extern void *memset(void *, int, __SIZE_TYPE__);
struct record { uint16_t key; uint16_t tag; uint32_t value; };
/* stable, by the low byte of the key */
void KERNEL(struct record *out, const struct record *in, uint32_t n)
{
    uint32_t count[256];
    memset(count, 0, sizeof count);
    for (uint32_t i = 0; i < n; i++) count[in[i].key & 0xff]++;
    uint32_t total = 0;
    for (int b = 0; b < 256; b++) {
        uint32_t c = count[b];
        count[b] = total;
        total += c;
    }
    for (uint32_t i = 0; i < n; i++) out[count[in[i].key & 0xff]++] = in[i];
}
