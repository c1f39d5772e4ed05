#include <stdint.h>
#include <stddef.h>
/* a column page: definition levels in a hybrid of runs and packed bits, values by dictionary, nulls filled in */
struct reader { const uint8_t *p, *end; unsigned width; uint32_t repeat, literal, value; uint64_t buffer; unsigned have; };
static int varint(struct reader *r, uint32_t *out)
{
    uint32_t v = 0;
    for (unsigned shift = 0; shift < 32; shift += 7) {
        if (r->p == r->end) return 0;
        uint8_t b = *r->p++;
        v |= (uint32_t)(b & 127) << shift;
        if (!(b & 128)) { *out = v; return 1; }
    }
    return 0;
}
static int next(struct reader *r, uint32_t *out)
{
    if (!r->repeat && !r->literal) {
        uint32_t head;
        if (!varint(r, &head)) return 0;
        if (head & 1) {
            r->literal = (head >> 1) * 8;
            r->have = 0;
            r->buffer = 0;
        } else {
            r->repeat = head >> 1;
            r->value = 0;
            for (unsigned i = 0; i < (r->width + 7) / 8; i++) {
                if (r->p == r->end) return 0;
                r->value |= (uint32_t)*r->p++ << 8 * i;
            }
        }
        if (!r->repeat && !r->literal) return 0;
    }
    if (r->repeat) {
        r->repeat--;
        *out = r->value;
        return 1;
    }
    r->literal--;
    while (r->have < r->width) {
        if (r->p == r->end) return 0;
        r->buffer |= (uint64_t)*r->p++ << r->have;
        r->have += 8;
    }
    *out = (uint32_t)(r->buffer & ((1ULL << r->width) - 1));
    r->buffer >>= r->width;
    r->have -= r->width;
    return 1;
}
void KERNEL(int64_t *out, size_t rows, const uint8_t *levels, const uint8_t *indices, const int64_t *dict, uint32_t ndict, uint32_t *result)
{
    struct reader def = { levels, levels + 512, 1 }, idx = { indices, indices + 1024, 6 };
    uint32_t nulls = 0;
    int64_t sum = 0;
    size_t i;
    for (i = 0; i < rows; i++) {
        uint32_t level, k;
        if (!next(&def, &level)) break;
        if (!level) { out[i] = INT64_MIN; nulls++; continue; }
        if (!next(&idx, &k)) break;
        if (k >= ndict) break;
        out[i] = dict[k];
        sum += dict[k];
    }
    result[0] = i;
    result[1] = nulls;
    result[2] = (uint32_t)sum;
    result[3] = (uint32_t)(sum >> 32);
}
