#include <stdint.h>
#include <stddef.h>
/* RFC 8949: a walk over nested items, by recursion, with lengths of up to 64 bits */
typedef struct { const uint8_t *p, *end; uint32_t *out; uint32_t count, room; int error; } cbor_t;
#define CBOR_MAX_DEPTH 12
static void emit(cbor_t *c, uint32_t kind, uint64_t value)
{
    if (c->count < c->room) {
        c->out[2 * c->count] = kind;
        c->out[2 * c->count + 1] = (uint32_t)(value ^ value >> 32);
    }
    c->count++;
}
static uint64_t head(cbor_t *c, uint8_t info)
{
    uint64_t v = 0;
    int n;
    if (info < 24) return info;
    if (info > 27) { c->error = 1; return 0; }
    n = 1 << (info - 24);
    if (c->end - c->p < n) { c->error = 2; return 0; }
    while (n--) v = v << 8 | *c->p++;
    return v;
}
static void item(cbor_t *c, int depth)
{
    if (c->error) return;
    if (depth > CBOR_MAX_DEPTH) { c->error = 3; return; }
    if (c->p == c->end) { c->error = 4; return; }
    uint8_t b = *c->p++;
    uint8_t major = b >> 5, info = b & 31;
    uint64_t v;
    switch (major) {
    case 0: emit(c, 0, head(c, info)); break;
    case 1: emit(c, 1, -1 - head(c, info)); break;
    case 2:
    case 3:
        v = head(c, info);
        if (c->error) return;
        if (v > (uint64_t)(c->end - c->p)) { c->error = 5; return; }
        uint32_t h = 2166136261u;
        for (uint32_t i = 0; i < (uint32_t)v; i++) h = (h ^ c->p[i]) * 16777619u;
        c->p += (uint32_t)v;
        emit(c, major, h);
        break;
    case 4:
    case 5:
        v = head(c, info);
        emit(c, major, v);
        if (v > 1000) { c->error = 6; return; }
        for (uint32_t i = 0; i < (uint32_t)v << (major - 4) && !c->error; i++) item(c, depth + 1);
        break;
    case 6:
        emit(c, 6, head(c, info));
        item(c, depth + 1);
        break;
    default:
        switch (info) {
        case 20: emit(c, 7, 0); break;
        case 21: emit(c, 7, 1); break;
        case 22: case 23: emit(c, 8, 0); break;
        case 25: case 26: case 27: emit(c, 9, head(c, info)); break;
        default: c->error = 7;
        }
    }
}
void KERNEL(const uint8_t *data, size_t len, uint32_t *out, uint32_t room, int32_t *result)
{
    cbor_t c = { data, data + len, out, 0, room, 0 };
    while (c.p < c.end && !c.error) item(&c, 0);
    result[0] = c.error ? -c.error : (int32_t)c.count;
    result[1] = c.p - data;
}
