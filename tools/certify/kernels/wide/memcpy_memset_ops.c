#include <stdint.h>
#include <stddef.h>
extern void *memcpy(void *, const void *, size_t);
extern void *memmove(void *, const void *, size_t);
extern void *memset(void *, int, size_t);
struct op { uint8_t kind, byte; uint16_t to, from, length; };
/* patches of variable length, as a delta decoder applies them */
void KERNEL(uint8_t *dst, const uint8_t *src, const struct op *ops, uint32_t n)
{
    for (uint32_t i = 0; i < n; i++) {
        const struct op *o = ops + i;
        if (o->to + o->length > 4096) continue;
        switch (o->kind & 3) {
        case 0: if (o->from + o->length <= 2048) memcpy(dst + o->to, src + o->from, o->length); break;
        case 1: if (o->from + o->length <= 4096) memmove(dst + o->to, dst + o->from, o->length); break;
        case 2: memset(dst + o->to, o->byte, o->length); break;
        }
    }
}
