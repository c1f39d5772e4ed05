/* What a compiler may call of freestanding C without being asked: memory functions, 64-bit division and shifts, and counts of bits.
   Linked in where a kernel leaves one of them undefined. */
typedef unsigned int u32;
typedef unsigned long long u64;
typedef long long i64;
typedef __SIZE_TYPE__ size_t;
#if defined(__clang__)
#define PLAIN __attribute__((weak))
#else
#define PLAIN __attribute__((weak, optimize("no-tree-loop-distribute-patterns")))
#endif

PLAIN void *memset(void *to, int byte, size_t n) {
    unsigned char *p = to;
    while (n--) *p++ = byte;
    return to;
}

PLAIN void *memcpy(void *restrict to, const void *restrict from, size_t n) {
    unsigned char *p = to;
    const unsigned char *q = from;
    while (n--) *p++ = *q++;
    return to;
}

PLAIN void *memmove(void *to, const void *from, size_t n) {
    unsigned char *p = to;
    const unsigned char *q = from;
    if (p < q) {
        while (n--) *p++ = *q++;
    } else {
        while (n) {
            n--;
            p[n] = q[n];
        }
    }
    return to;
}

PLAIN int memcmp(const void *one, const void *two, size_t n) {
    const unsigned char *p = one, *q = two;
    for (; n; n--, p++, q++)
        if (*p != *q) return *p < *q ? -1 : 1;
    return 0;
}

PLAIN void *memchr(const void *in, int byte, size_t n) {
    const unsigned char *p = in;
    for (; n--; p++)
        if (*p == (unsigned char)byte) return (void *)p;
    return 0;
}

PLAIN int strcmp(const char *one, const char *two) {
    while (*one && *one == *two) one++, two++;
    return *(const unsigned char *)one - *(const unsigned char *)two;
}

PLAIN int strncmp(const char *one, const char *two, size_t n) {
    for (; n--; one++, two++)
        if (!*one || *one != *two) return *(const unsigned char *)one - *(const unsigned char *)two;
    return 0;
}

PLAIN char *strchr(const char *s, int c) {
    for (; *s != (char)c; s++)
        if (!*s) return 0;
    return (char *)s;
}

PLAIN size_t strlen(const char *s) {
    size_t n = 0;
    while (s[n]) n++;
    return n;
}

/* 64 bits by 64, bit by bit; of division by 0 all bits are set, as the instructions have it. */
static u64 divided(u64 n, u64 d, u64 *rest) {
    u64 r = 0;
    for (int k = 64; k; k--) {
        u32 carry = r >> 63;
        r = r << 1 | n >> 63;
        n <<= 1;
        if (carry || r >= d) {
            r -= d;
            n |= 1;
        }
    }
    *rest = r;
    return n;
}

PLAIN u64 __udivdi3(u64 n, u64 d) {
    u64 rest;
    return divided(n, d, &rest);
}

PLAIN u64 __umoddi3(u64 n, u64 d) {
    u64 rest;
    divided(n, d, &rest);
    return rest;
}

PLAIN i64 __divdi3(i64 n, i64 d) {
    u64 rest, q = divided(n < 0 ? -(u64)n : n, d < 0 ? -(u64)d : d, &rest);
    return (n < 0) != (d < 0) ? -q : q;
}

PLAIN i64 __moddi3(i64 n, i64 d) {
    u64 rest;
    divided(n < 0 ? -(u64)n : n, d < 0 ? -(u64)d : d, &rest);
    return n < 0 ? -rest : rest;
}

/* Built of halves, so that no compiler makes a call of the same function of it. */
union halves { u64 whole; struct { u32 low, high; }; };

PLAIN u64 __ashldi3(u64 x, int n) {
    union halves in = { x }, out;
    if (n & 32) {
        out.low = 0;
        out.high = in.low << (n & 31);
    } else if (n) {
        out.low = in.low << n;
        out.high = in.high << n | in.low >> (32 - n);
    } else {
        out = in;
    }
    return out.whole;
}

PLAIN u64 __lshrdi3(u64 x, int n) {
    union halves in = { x }, out;
    if (n & 32) {
        out.high = 0;
        out.low = in.high >> (n & 31);
    } else if (n) {
        out.high = in.high >> n;
        out.low = in.low >> n | in.high << (32 - n);
    } else {
        out = in;
    }
    return out.whole;
}

PLAIN i64 __ashrdi3(i64 x, int n) {
    union halves in = { x }, out;
    if (n & 32) {
        out.high = (int)in.high >> 31;
        out.low = (int)in.high >> (n & 31);
    } else if (n) {
        out.high = (int)in.high >> n;
        out.low = in.low >> n | in.high << (32 - n);
    } else {
        out = in;
    }
    return out.whole;
}

PLAIN i64 __muldi3(i64 one, i64 two) {
    union halves a = { one }, b = { two }, out = { (u64)(u32)one * (u32)two };
    out.high += a.low * b.high + a.high * b.low;
    return out.whole;
}

PLAIN int __popcountsi2(u32 x) {
    x -= x >> 1 & 0x55555555;
    x = (x & 0x33333333) + (x >> 2 & 0x33333333);
    x = (x + (x >> 4)) & 0x0f0f0f0f;
    return x * 0x01010101u >> 24;
}

PLAIN int __popcountdi2(u64 x) { return __popcountsi2(x) + __popcountsi2(x >> 32); }

PLAIN int __ctzsi2(u32 x) { return __popcountsi2((x & -x) - 1); }

PLAIN int __clzsi2(u32 x) {
    x |= x >> 1;
    x |= x >> 2;
    x |= x >> 4;
    x |= x >> 8;
    x |= x >> 16;
    return 32 - __popcountsi2(x);
}

PLAIN int __ctzdi2(u64 x) { return (u32)x ? __ctzsi2(x) : 32 + __ctzsi2(x >> 32); }

PLAIN int __clzdi2(u64 x) { return x >> 32 ? __clzsi2(x >> 32) : 32 + __clzsi2(x); }

PLAIN int __ffssi2(u32 x) { return x ? __ctzsi2(x) + 1 : 0; }

PLAIN u32 __bswapsi2(u32 x) { return x << 24 | (x & 0xff00) << 8 | (x >> 8 & 0xff00) | x >> 24; }

PLAIN u64 __bswapdi2(u64 x) { return (u64)__bswapsi2(x) << 32 | __bswapsi2(x >> 32); }
