#include <stdint.h>
#include <stddef.h>
#include <string.h>
/* a decoder with a window of its own, as a stream's state in a structure: literals in runs by memcpy, and matches across the window's end */
struct state { uint8_t window[256]; uint32_t at, total; const uint8_t *in, *in_end; uint8_t *out, *out_end; };
static int put(struct state *s, uint8_t b) { if (s->out == s->out_end) return 0; *s->out++ = b; s->window[s->at++ & 255] = b; s->total++; return 1; }
static int run(struct state *s, uint32_t n)
{
    if ((uint32_t)(s->in_end - s->in) < n || (uint32_t)(s->out_end - s->out) < n) return 0;
    memcpy(s->out, s->in, n);
    for (uint32_t i = 0; i < n; i++) s->window[s->at++ & 255] = s->in[i];
    s->in += n; s->out += n; s->total += n;
    return 1;
}
static int match(struct state *s, uint32_t far, uint32_t n)
{
    while (n--) if (!put(s, s->window[(s->at - far) & 255])) return 0;
    return 1;
}
void KERNEL(uint8_t *out, size_t room, const uint8_t *in, size_t n, uint32_t *size)
{
    struct state s;
    memset(&s, 0, sizeof s);
    s.in = in; s.in_end = in + n; s.out = out; s.out_end = out + room;
    int ok = 1;
    while (ok && s.in < s.in_end) {
        uint8_t c = *s.in++;
        if (c < 128) ok = run(&s, (c & 31) + 1);
        else if (s.in < s.in_end) { uint8_t d = *s.in++; ok = match(&s, d + 1u, (c & 63) + 3); }
    }
    size[0] = s.total; size[1] = ok; size[2] = s.in - in;
}
