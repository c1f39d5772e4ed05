#include <stdint.h>
/* values of a width that is passed, least bit first, by words */
void KERNEL(uint32_t *out, const uint32_t *in, uint32_t n, uint32_t width)
{
    uint64_t acc = 0;
    uint32_t have = 0, mask = width == 32 ? ~0u : (1u << width) - 1;
    while (n--) {
        if (have < width) {
            acc |= (uint64_t)*in++ << have;
            have += 32;
        }
        *out++ = (uint32_t)acc & mask;
        acc >>= width;
        have -= width;
    }
}
