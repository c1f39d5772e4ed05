#include <stdint.h>
#include <stddef.h>
/* UTF-8 by a table of byte classes and one of states; bad sequences become U+FFFD, and lines and columns are counted. */
#define ACCEPT 0
#define REJECT 12

static uint8_t classes[256];
static const uint8_t states[108] = {
     0,12,24,36,60,96,84,12,12,12,48,72, 12,12,12,12,12,12,12,12,12,12,12,12,
    12, 0,12,12,12,12,12, 0,12, 0,12,12, 12,24,12,12,12,12,12,24,12,24,12,12,
    12,12,12,12,12,12,12,24,12,12,12,12, 12,24,12,12,12,12,12,12,12,24,12,12,
    12,12,12,12,12,12,12,36,12,36,12,12, 12,36,12,12,12,12,12,36,12,36,12,12,
    12,36,12,12,12,12,12,12,12,12,12,12};

static void set(int from, int to, uint8_t class)
{
    while (from <= to) classes[from++] = class;
}

static void prepare(void)
{
    set(0x00, 0x7f, 0);
    set(0x80, 0x8f, 1);
    set(0x90, 0x9f, 9);
    set(0xa0, 0xbf, 7);
    set(0xc0, 0xc1, 8);
    set(0xc2, 0xdf, 2);
    set(0xe0, 0xe0, 10);
    set(0xe1, 0xec, 3);
    set(0xed, 0xed, 4);
    set(0xee, 0xef, 3);
    set(0xf0, 0xf0, 11);
    set(0xf1, 0xf3, 6);
    set(0xf4, 0xf4, 5);
    set(0xf5, 0xff, 8);
}

static inline uint32_t step(uint32_t *state, uint32_t *code, uint32_t byte)
{
    uint32_t class = classes[byte];
    *code = *state != ACCEPT ? (byte & 0x3f) | *code << 6 : 0xff >> class & byte;
    return *state = states[*state + class];
}

void KERNEL(uint32_t *points, const uint8_t *text, size_t n, uint32_t *result)
{
    uint32_t state = ACCEPT, previous = ACCEPT, code = 0, line = 1, column = 1, bad = 0;
    uint32_t *out = points;
    const uint8_t *s = text, *end = text + n;
    prepare();
    for (; s != end; previous = state, s++) {
        switch (step(&state, &code, *s)) {
        case ACCEPT:
            *out++ = code;
            if (code == '\n') {
                line++;
                column = 1;
            } else column++;
            break;
        case REJECT:
            state = ACCEPT;
            bad++;
            *out++ = 0xfffd;
            if (previous != ACCEPT) s--;
            break;
        }
    }
    if (state != ACCEPT) {
        *out++ = 0xfffd;
        bad++;
    }
    result[0] = (uint32_t)(out - points);
    result[1] = bad;
    result[2] = line;
    result[3] = column;
}
