#include <stdint.h>
#include <stddef.h>
/* Inflate with a table of 10 bits for short codes and a tree of halves for long ones; one decompressor with its input and output. */
enum { FAST_BITS = 10, FAST_SIZE = 1 << FAST_BITS, MAX_LITS = 288, MAX_DISTS = 32, MAX_LENS = 19 };
enum { DONE = 0, NEEDS_INPUT = -1, BAD_BLOCK = -2, BAD_CODE = -3, NO_ROOM = -4, BAD_DISTANCE = -5 };

typedef struct {
    uint8_t sizes[MAX_LITS];
    int16_t look_up[FAST_SIZE], tree[MAX_LITS * 2];
} table;

typedef struct {
    const uint8_t *in, *in_end;
    uint8_t *out, *out_begin, *out_end;
    uint32_t bits, count;
    int failed;
    table tables[3];
} inflater;

static const uint16_t length_base[31] = {3,4,5,6,7,8,9,10,11,13,15,17,19,23,27,31,35,43,51,59,67,83,99,115,131,163,195,227,258,0,0};
static const uint8_t length_extra[31] = {0,0,0,0,0,0,0,0,1,1,1,1,2,2,2,2,3,3,3,3,4,4,4,4,5,5,5,5,0,0,0};
static const uint16_t dist_base[32] = {1,2,3,4,5,7,9,13,17,25,33,49,65,97,129,193,257,385,513,769,1025,1537,2049,3073,4097,6145,8193,12289,16385,24577,0,0};
static const uint8_t dist_extra[32] = {0,0,0,0,1,1,2,2,3,3,4,4,5,5,6,6,7,7,8,8,9,9,10,10,11,11,12,12,13,13,0,0};
static const uint8_t order[MAX_LENS] = {16,17,18,0,8,7,9,6,10,5,11,4,12,3,13,2,14,1,15};

static uint32_t get_bits(inflater *z, uint32_t n)
{
    uint32_t value;
    while (z->count < n) {
        if (z->in >= z->in_end) {
            z->failed = NEEDS_INPUT;
            return 0;
        }
        z->bits |= (uint32_t)*z->in++ << z->count;
        z->count += 8;
    }
    value = z->bits & ((1u << n) - 1);
    z->bits >>= n;
    z->count -= n;
    return value;
}

static int build(table *t, uint32_t symbols)
{
    uint32_t total[17] = {0}, next[17], used = 0, sum = 0;
    int tree_next = -1;
    for (int i = 0; i < FAST_SIZE; i++) t->look_up[i] = 0;
    for (int i = 0; i < MAX_LITS * 2; i++) t->tree[i] = 0;
    for (uint32_t i = 0; i < symbols; i++) total[t->sizes[i]]++;
    next[0] = next[1] = 0;
    for (int i = 1; i <= 15; i++) {
        used += total[i];
        next[i + 1] = sum = (sum + total[i]) << 1;
    }
    if (sum != 65536 && used > 1) return BAD_CODE;
    for (uint32_t sym = 0; sym < symbols; sym++) {
        uint32_t size = t->sizes[sym], rev = 0, code;
        int tree;
        if (!size) continue;
        code = next[size]++;
        for (uint32_t l = size; l > 0; l--, code >>= 1) rev = rev << 1 | (code & 1);
        if (size <= FAST_BITS) {
            int16_t k = (int16_t)(size << 9 | sym);
            while (rev < FAST_SIZE) {
                t->look_up[rev] = k;
                rev += 1u << size;
            }
            continue;
        }
        tree = t->look_up[rev & (FAST_SIZE - 1)];
        if (tree == 0) {
            t->look_up[rev & (FAST_SIZE - 1)] = (int16_t)tree_next;
            tree = tree_next;
            tree_next -= 2;
        }
        rev >>= FAST_BITS - 1;
        for (uint32_t j = size; j > FAST_BITS + 1; j--) {
            tree -= (rev >>= 1) & 1;
            if (!t->tree[-tree - 1]) {
                t->tree[-tree - 1] = (int16_t)tree_next;
                tree = tree_next;
                tree_next -= 2;
            } else tree = t->tree[-tree - 1];
        }
        tree -= (rev >>= 1) & 1;
        t->tree[-tree - 1] = (int16_t)sym;
    }
    return DONE;
}

static int symbol(inflater *z, const table *t)
{
    int s;
    uint32_t len;
    while (z->count < 15 && z->in < z->in_end) {
        z->bits |= (uint32_t)*z->in++ << z->count;
        z->count += 8;
    }
    s = t->look_up[z->bits & (FAST_SIZE - 1)];
    if (s >= 0) {
        len = (uint32_t)s >> 9;
        s &= 511;
    } else {
        len = FAST_BITS;
        do {
            s = t->tree[~s + ((z->bits >> len++) & 1)];
        } while (s < 0);
    }
    if (len == 0 || len > z->count) {
        z->failed = len ? NEEDS_INPUT : BAD_CODE;
        return -1;
    }
    z->bits >>= len;
    z->count -= len;
    return s;
}

static int stored(inflater *z)
{
    uint32_t len, nlen;
    get_bits(z, z->count & 7);
    len = get_bits(z, 16);
    nlen = get_bits(z, 16);
    if (z->failed) return z->failed;
    if (len != (nlen ^ 0xffff)) return BAD_BLOCK;
    while (len && z->count) {
        if (z->out >= z->out_end) return NO_ROOM;
        *z->out++ = (uint8_t)get_bits(z, 8);
        len--;
    }
    if (len > (size_t)(z->in_end - z->in)) return NEEDS_INPUT;
    if (len > (size_t)(z->out_end - z->out)) return NO_ROOM;
    while (len--) *z->out++ = *z->in++;
    return DONE;
}

static int dynamic(inflater *z)
{
    uint32_t lits = get_bits(z, 5) + 257, dists = get_bits(z, 5) + 1, lens = get_bits(z, 4) + 4, n = 0;
    uint8_t sizes[MAX_LITS + MAX_DISTS + 137];
    table *codes = &z->tables[2];
    for (int i = 0; i < MAX_LENS; i++) codes->sizes[i] = 0;
    for (uint32_t i = 0; i < lens; i++) codes->sizes[order[i]] = (uint8_t)get_bits(z, 3);
    if (z->failed || build(codes, MAX_LENS)) return BAD_CODE;
    while (n < lits + dists) {
        int s = symbol(z, codes);
        uint32_t times;
        uint8_t fill = 0;
        if (s < 0) return z->failed;
        if (s < 16) {
            sizes[n++] = (uint8_t)s;
            continue;
        }
        if (s == 16 && n == 0) return BAD_CODE;
        switch (s) {
        case 16: times = 3 + get_bits(z, 2); fill = sizes[n - 1]; break;
        case 17: times = 3 + get_bits(z, 3); break;
        default: times = 11 + get_bits(z, 7); break;
        }
        while (times--) sizes[n++] = fill;
    }
    if (n != lits + dists) return BAD_CODE;
    for (uint32_t i = 0; i < MAX_LITS; i++) z->tables[0].sizes[i] = i < lits ? sizes[i] : 0;
    for (uint32_t i = 0; i < MAX_DISTS; i++) z->tables[1].sizes[i] = i < dists ? sizes[lits + i] : 0;
    return z->failed;
}

static void fixed(inflater *z)
{
    uint8_t *p = z->tables[0].sizes;
    int i = 0;
    for (; i < 144; i++) *p++ = 8;
    for (; i < 256; i++) *p++ = 9;
    for (; i < 280; i++) *p++ = 7;
    for (; i < 288; i++) *p++ = 8;
    for (i = 0; i < MAX_DISTS; i++) z->tables[1].sizes[i] = 5;
}

static int codes(inflater *z)
{
    for (;;) {
        int s = symbol(z, &z->tables[0]);
        uint32_t len, dist;
        if (s < 0) return z->failed;
        if (s < 256) {
            if (z->out >= z->out_end) return NO_ROOM;
            *z->out++ = (uint8_t)s;
            continue;
        }
        if (s == 256) return DONE;
        s -= 257;
        if (s >= 29) return BAD_CODE;
        len = length_base[s] + get_bits(z, length_extra[s]);
        s = symbol(z, &z->tables[1]);
        if (s < 0) return z->failed;
        if (s >= 30) return BAD_CODE;
        dist = dist_base[s] + get_bits(z, dist_extra[s]);
        if (z->failed) return z->failed;
        if (dist > (size_t)(z->out - z->out_begin)) return BAD_DISTANCE;
        if (len > (size_t)(z->out_end - z->out)) return NO_ROOM;
        const uint8_t *from = z->out - dist;
        do {
            *z->out++ = *from++;
        } while (--len);
    }
}

static inflater state;

void KERNEL(uint8_t *out, uint32_t *out_len, const uint8_t *in, uint32_t in_len, int32_t *status)
{
    inflater *z = &state;
    int last, how = DONE;
    z->in = in;
    z->in_end = in + in_len;
    z->out = z->out_begin = out;
    z->out_end = out + *out_len;
    z->bits = z->count = 0;
    z->failed = 0;
    do {
        last = get_bits(z, 1);
        switch (get_bits(z, 2)) {
        case 0:
            how = stored(z);
            break;
        case 1:
            fixed(z);
            goto tables;
        case 2:
            how = dynamic(z);
            if (how) break;
        tables:
            how = build(&z->tables[0], MAX_LITS);
            if (!how) how = build(&z->tables[1], MAX_DISTS);
            if (!how) how = codes(z);
            break;
        default:
            how = BAD_BLOCK;
        }
    } while (!last && !how && !z->failed);
    *out_len = (uint32_t)(z->out - out);
    *status = how ? how : z->failed;
}
