#include <stdint.h>
#include <stddef.h>
/* fields of a message by number, wire type and place; a negative number where it is cut or bad */
struct field { uint32_t number; uint32_t value_low; uint16_t wire, at; uint32_t length; };
static int varint(const uint8_t **p, const uint8_t *end, uint64_t *out)
{
    uint64_t v = 0;
    for (int shift = 0; shift < 70; shift += 7) {
        if (*p == end) return 0;
        uint8_t b = *(*p)++;
        v |= (uint64_t)(b & 0x7f) << shift;
        if (!(b & 0x80)) {
            *out = v;
            return 1;
        }
    }
    return 0;
}
void KERNEL(const uint8_t *msg, size_t n, struct field *fields, int32_t *result)
{
    const uint8_t *p = msg, *end = msg + n;
    int count = 0;
    while (p < end) {
        uint64_t tag, v = 0;
        if (!varint(&p, end, &tag)) { *result = -1; return; }
        struct field f = { (uint32_t)(tag >> 3), 0, tag & 7, p - msg, 0 };
        switch (tag & 7) {
        case 0:
            if (!varint(&p, end, &v)) { *result = -2; return; }
            f.value_low = v;
            break;
        case 1:
            if (end - p < 8) { *result = -3; return; }
            f.value_low = p[0] | p[1] << 8 | p[2] << 16 | (uint32_t)p[3] << 24;
            p += 8;
            break;
        case 2:
            if (!varint(&p, end, &v) || v > (uint64_t)(end - p)) { *result = -4; return; }
            f.at = p - msg;
            f.length = v;
            p += (size_t)v;
            break;
        case 5:
            if (end - p < 4) { *result = -5; return; }
            f.value_low = p[0] | p[1] << 8 | p[2] << 16 | (uint32_t)p[3] << 24;
            p += 4;
            break;
        default: *result = -6; return;
        }
        if (count == 256) { *result = -7; return; }
        fields[count++] = f;
    }
    *result = count;
}
