#include <stdint.h>
#include <stddef.h>
/* a validator of a stack machine's code: LEB128 numbers, blocks within one another, a stack of types */
enum { T_I32 = 1, T_I64, T_ANY };
struct frame { uint16_t height; uint8_t kind, unreachable; };
struct code { const uint8_t *p, *end; uint8_t types[256]; struct frame frames[32]; int depth, height; };
static int leb(struct code *c, uint32_t *v)
{
    uint32_t out = 0;
    for (int shift = 0; shift < 35; shift += 7) {
        if (c->p >= c->end) return 0;
        uint8_t b = *c->p++;
        out |= (uint32_t)(b & 0x7f) << (shift & 31);
        if (b < 0x80) { *v = out; return 1; }
    }
    return 0;
}
static int push(struct code *c, int type)
{
    if (c->height == 256) return 0;
    c->types[c->height++] = type;
    return 1;
}
static int pop(struct code *c, int type)
{
    struct frame *f = &c->frames[c->depth];
    if (c->height == f->height) return f->unreachable;
    int have = c->types[--c->height];
    return have == type || type == T_ANY;
}
static int block(struct code *c, int kind)
{
    if (c->depth == 31) return 0;
    struct frame *f = &c->frames[++c->depth];
    f->height = c->height;
    f->kind = kind;
    f->unreachable = 0;
    return 1;
}
static int step(struct code *c)
{
    uint32_t n, m;
    switch (*c->p++) {
    case 0x00: c->frames[c->depth].unreachable = 1; c->height = c->frames[c->depth].height; return 1;
    case 0x01: return 1;
    case 0x02: return block(c, 2);
    case 0x03: return block(c, 3);
    case 0x04: return pop(c, T_I32) && block(c, 4);
    case 0x05: if (c->frames[c->depth].kind != 4) return 0; c->frames[c->depth].kind = 5; c->height = c->frames[c->depth].height; return 1;
    case 0x0b: if (c->depth == 0) return 0; c->height = c->frames[c->depth--].height; return 1;
    case 0x0c: if (!leb(c, &n) || n > (uint32_t)c->depth) return 0; c->frames[c->depth].unreachable = 1; c->height = c->frames[c->depth].height; return 1;
    case 0x0d: return leb(c, &n) && n <= (uint32_t)c->depth && pop(c, T_I32);
    case 0x0e:
        if (!leb(c, &n) || n > 64) return 0;
        for (uint32_t i = 0; i <= n; i++) if (!leb(c, &m) || m > (uint32_t)c->depth) return 0;
        return pop(c, T_I32);
    case 0x1a: return pop(c, T_ANY);
    case 0x20: return leb(c, &n) && n < 16 && push(c, n & 1 ? T_I64 : T_I32);
    case 0x21: return leb(c, &n) && n < 16 && pop(c, n & 1 ? T_I64 : T_I32);
    case 0x41: return leb(c, &n) && push(c, T_I32);
    case 0x42: return leb(c, &n) && push(c, T_I64);
    case 0x45: return pop(c, T_I32) && push(c, T_I32);
    case 0x46: case 0x47: case 0x48: return pop(c, T_I32) && pop(c, T_I32) && push(c, T_I32);
    case 0x51: case 0x52: return pop(c, T_I64) && pop(c, T_I64) && push(c, T_I32);
    case 0x6a: case 0x6b: case 0x6c: return pop(c, T_I32) && pop(c, T_I32) && push(c, T_I32);
    case 0x7c: case 0x7d: return pop(c, T_I64) && pop(c, T_I64) && push(c, T_I64);
    case 0xa7: return pop(c, T_I64) && push(c, T_I32);
    case 0xad: return pop(c, T_I32) && push(c, T_I64);
    default: return 0;
    }
}
void KERNEL(const uint8_t *body, size_t len, uint32_t *result)
{
    static struct code c;
    c.p = body; c.end = body + len; c.depth = 0; c.height = 0;
    c.frames[0].height = 0; c.frames[0].kind = 2; c.frames[0].unreachable = 0;
    uint32_t steps = 0;
    int ok = 1;
    while (c.p < c.end && (ok = step(&c))) steps++;
    result[0] = ok;
    result[1] = c.p - body;
    result[2] = steps;
    result[3] = c.depth << 16 | c.height;
}
