#include <stdint.h>
#include <stddef.h>
static size_t cobsEncode(const void *data, size_t length, uint8_t *buffer)
{
    uint8_t *encode = buffer, *codep = encode++, code = 1;
    for (const uint8_t *byte = (const uint8_t *)data; length--; ++byte) {
        if (*byte) *encode++ = *byte, ++code;
        if (!*byte || code == 0xff) {
            *codep = code, code = 1, codep = encode;
            if (!*byte || length) ++encode;
        }
    }
    *codep = code;
    return (size_t)(encode - buffer);
}
static size_t cobsDecode(const uint8_t *buffer, size_t length, void *data)
{
    const uint8_t *byte = buffer;
    uint8_t *decode = (uint8_t *)data;
    for (uint8_t code = 0xff, block = 0; byte < buffer + length; --block) {
        if (block) *decode++ = *byte++;
        else {
            block = *byte++;
            if (block && (code != 0xff)) *decode++ = 0;
            code = block;
            if (!code) break;
        }
    }
    return (size_t)(decode - (uint8_t *)data);
}
void KERNEL(uint8_t *coded, uint8_t *plain, const uint8_t *in, size_t n, uint32_t *sizes)
{
    sizes[0] = cobsEncode(in, n, coded);
    sizes[1] = cobsDecode(coded, sizes[0], plain);
}
