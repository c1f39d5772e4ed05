#include <stdint.h>
#include <stddef.h>
/* A column of packed sint64 values in protobuf's wire format: zigzag, deltas, and a bitmap of those that fit 32 bits. */
enum status { OK, TRUNCATED, TOO_LONG, FULL };

struct reader {
    const uint8_t *cursor;
    const uint8_t *limit;
    enum status status;
};

static uint64_t next_varint(struct reader *r)
{
    const uint8_t *p = r->cursor;
    uint64_t value = 0;
    unsigned shift = 0;
    if (p < r->limit && !(*p & 0x80)) {
        r->cursor = p + 1;
        return *p;
    }
    while (p < r->limit) {
        uint8_t byte = *p++;
        value |= (uint64_t)(byte & 0x7f) << shift;
        if (!(byte & 0x80)) {
            r->cursor = p;
            return value;
        }
        shift += 7;
        if (shift >= 70) {
            r->status = TOO_LONG;
            return 0;
        }
    }
    r->status = TRUNCATED;
    return 0;
}

static int64_t unzigzag(uint64_t v)
{
    return (int64_t)(v >> 1) ^ -(int64_t)(v & 1);
}

void KERNEL(int64_t *values, uint32_t capacity, uint32_t *narrow, const uint8_t *data, uint32_t size, uint32_t *summary)
{
    struct reader r = {data, data + size, OK};
    int64_t last = 0, least = INT64_MAX, most = INT64_MIN;
    uint32_t n = 0;
    while (r.cursor < r.limit) {
        uint64_t raw = next_varint(&r);
        if (r.status != OK) break;
        if (n == capacity) {
            r.status = FULL;
            break;
        }
        last += unzigzag(raw);
        values[n] = last;
        if (last < least) least = last;
        if (last > most) most = last;
        if ((n & 31) == 0) narrow[n >> 5] = 0;
        if (last >= INT32_MIN && last <= INT32_MAX) narrow[n >> 5] |= 1u << (n & 31);
        n++;
    }
    summary[0] = n;
    summary[1] = r.status;
    summary[2] = (uint32_t)least;
    summary[3] = (uint32_t)((uint64_t)least >> 32);
    summary[4] = (uint32_t)most;
    summary[5] = (uint32_t)((uint64_t)most >> 32);
}
