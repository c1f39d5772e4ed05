#include <stdint.h>
#include <stddef.h>
/* Finite state entropy as zstd has it: counts to a decoding table, then two states that take turns on bits read from the end. */
#define MAX_LOG 9
#define MAX_SYMBOLS 64

typedef struct {
    uint16_t new_state;
    uint8_t symbol, bits;
} entry;

typedef struct {
    uint32_t container;
    unsigned consumed;
    const uint8_t *ptr, *start;
} bit_stream;

typedef enum { UNFINISHED, END_OF_BUFFER, COMPLETED, OVERFLOWN } progress;

static unsigned highest_bit(uint32_t v)
{
    return 31 - __builtin_clz(v);
}

static uint32_t read_le(const uint8_t *p)
{
    return p[0] | p[1] << 8 | p[2] << 16 | (uint32_t)p[3] << 24;
}

static int build_table(entry *dt, const int16_t *norm, unsigned max_symbol, unsigned log)
{
    uint16_t next[MAX_SYMBOLS];
    uint32_t size = 1u << log, high = size - 1, step = (size >> 1) + (size >> 3) + 3, pos = 0;
    for (unsigned s = 0; s <= max_symbol; s++) {
        if (norm[s] == -1) {
            dt[high--].symbol = (uint8_t)s;
            next[s] = 1;
        } else next[s] = (uint16_t)norm[s];
    }
    for (unsigned s = 0; s <= max_symbol; s++) {
        for (int i = 0; i < norm[s]; i++) {
            dt[pos].symbol = (uint8_t)s;
            do {
                pos = (pos + step) & (size - 1);
            } while (pos > high);
        }
    }
    if (pos != 0) return -1;
    for (uint32_t u = 0; u < size; u++) {
        uint32_t state = next[dt[u].symbol]++;
        dt[u].bits = (uint8_t)(log - highest_bit(state));
        dt[u].new_state = (uint16_t)((state << dt[u].bits) - size);
    }
    return 0;
}

static int init_stream(bit_stream *b, const uint8_t *src, size_t n)
{
    if (n < 4 || src[n - 1] == 0) return -1;
    b->start = src;
    b->ptr = src + n - 4;
    b->container = read_le(b->ptr);
    b->consumed = 8 - highest_bit(src[n - 1]);
    return 0;
}

static uint32_t read_bits(bit_stream *b, unsigned n)
{
    uint32_t v = (b->container << (b->consumed & 31)) >> 1 >> ((31 - n) & 31);
    b->consumed += n;
    return v;
}

static progress reload(bit_stream *b)
{
    if (b->consumed > 32) return OVERFLOWN;
    if (b->ptr >= b->start + 4) {
        b->ptr -= b->consumed >> 3;
        b->consumed &= 7;
        b->container = read_le(b->ptr);
        return UNFINISHED;
    }
    if (b->ptr == b->start) return b->consumed < 32 ? END_OF_BUFFER : COMPLETED;
    {
        uint32_t bytes = b->consumed >> 3;
        progress result = UNFINISHED;
        if (b->ptr - bytes < b->start) {
            bytes = (uint32_t)(b->ptr - b->start);
            result = END_OF_BUFFER;
        }
        b->ptr -= bytes;
        b->consumed -= bytes * 8;
        b->container = read_le(b->ptr);
        return result;
    }
}

static uint8_t decode(const entry *dt, uint32_t *state, bit_stream *b)
{
    const entry e = dt[*state];
    *state = e.new_state + read_bits(b, e.bits);
    return e.symbol;
}

void KERNEL(uint8_t *dst, uint32_t room, const int16_t *norm, const uint8_t *src, uint32_t n, uint32_t log, int32_t *result)
{
    entry dt[1 << MAX_LOG];
    bit_stream b;
    uint8_t *op = dst, *const end = dst + room, *const limit = end - 3;
    uint32_t one, two;
    if (log > MAX_LOG || log < 5 || build_table(dt, norm, MAX_SYMBOLS - 1, log)) {
        *result = -1;
        return;
    }
    if (init_stream(&b, src, n)) {
        *result = -2;
        return;
    }
    one = read_bits(&b, log);
    reload(&b);
    two = read_bits(&b, log);
    reload(&b);
    for (; reload(&b) == UNFINISHED && op < limit; op += 4) {
        op[0] = decode(dt, &one, &b);
        op[1] = decode(dt, &two, &b);
        if (reload(&b) > UNFINISHED) {
            op += 2;
            break;
        }
        op[2] = decode(dt, &one, &b);
        op[3] = decode(dt, &two, &b);
    }
    for (;;) {
        if (op > end - 2) {
            *result = -3;
            return;
        }
        *op++ = decode(dt, &one, &b);
        if (reload(&b) == OVERFLOWN) {
            *op++ = decode(dt, &two, &b);
            break;
        }
        if (op > end - 2) {
            *result = -3;
            return;
        }
        *op++ = decode(dt, &two, &b);
        if (reload(&b) == OVERFLOWN) {
            *op++ = decode(dt, &one, &b);
            break;
        }
    }
    *result = (int32_t)(op - dst);
}
