#include <stdint.h>
#include <stddef.h>
/* segments out of order: a sorted list of holes in a pool, sequence numbers modulo 2^32 */
#define POOL 64
struct seg { uint32_t seq; uint16_t len, at; };
struct hole { uint32_t lo, hi; int16_t next; };
static int before(uint32_t a, uint32_t b) { return (int32_t)(a - b) < 0; }
void KERNEL(uint8_t *stream, uint32_t window, const struct seg *segs, size_t nsegs, const uint8_t *payload, uint32_t *out)
{
    struct hole pool[POOL];
    int16_t head = 0, spare = 1;
    uint32_t base = nsegs ? segs[0].seq & 0xffff0000u : 0, copied = 0, dropped = 0;
    if (window > 4096) window = 4096;
    for (int i = 0; i < POOL; i++) pool[i].next = i + 1 < POOL ? i + 1 : -1;
    pool[0].lo = base; pool[0].hi = base + window; pool[0].next = -1;
    for (size_t i = 0; i < nsegs; i++) {
        uint32_t lo = segs[i].seq, hi = lo + (segs[i].len & 255);
        int16_t *link = &head;
        while (*link >= 0) {
            struct hole *h = &pool[*link];
            uint32_t a = before(lo, h->lo) ? h->lo : lo, b = before(h->hi, hi) ? h->hi : hi;
            if (!before(a, b)) { link = &h->next; continue; }
            for (uint32_t s = a; s != b; s++) {
                stream[s - base] = payload[(segs[i].at + (s - lo)) & 1023];
                copied++;
            }
            if (a == h->lo && b == h->hi) {
                int16_t gone = *link;
                *link = h->next;
                h->next = spare;
                spare = gone;
            } else if (a == h->lo) {
                h->lo = b;
                link = &h->next;
            } else if (b == h->hi) {
                h->hi = a;
                link = &h->next;
            } else {
                int16_t more = spare;
                if (more < 0) { dropped++; break; }
                spare = pool[more].next;
                pool[more].lo = b; pool[more].hi = h->hi; pool[more].next = h->next;
                h->hi = a;
                h->next = more;
                link = &pool[more].next;
            }
        }
    }
    out[0] = copied;
    out[1] = dropped;
    out[2] = head < 0 ? base + window : pool[head].lo;
}
