#include <stdint.h>
/* words of 4 letters of 0..15 each; transitions in a static table, links by a queue; hits by word */
#define STATES 65
static uint8_t go[STATES][16], fail[STATES], out[STATES];
void KERNEL(const uint8_t *text, uint32_t n, const uint8_t *words, uint32_t count, uint32_t *hits)
{
    uint8_t queue[STATES];
    uint32_t states = 1, head = 0, tail = 0;
    for (int s = 0; s < STATES; s++) {
        fail[s] = 0;
        out[s] = 0xff;
        for (int c = 0; c < 16; c++) go[s][c] = 0;
    }
    for (uint32_t w = 0; w < count; w++) {
        uint32_t s = 0;
        hits[w] = 0;
        for (int k = 0; k < 4; k++) {
            uint8_t c = words[4 * w + k] & 15;
            if (!go[s][c]) go[s][c] = states++;
            s = go[s][c];
        }
        out[s] = w;
    }
    for (int c = 0; c < 16; c++) if (go[0][c]) queue[tail++] = go[0][c];
    while (head < tail) {
        uint32_t s = queue[head++];
        for (int c = 0; c < 16; c++) {
            uint32_t t = go[s][c];
            if (t) {
                fail[t] = go[fail[s]][c];
                queue[tail++] = t;
            } else go[s][c] = go[fail[s]][c];
        }
    }
    uint32_t s = 0;
    for (uint32_t i = 0; i < n; i++) {
        s = go[s][text[i] & 15];
        if (out[s] != 0xff) hits[out[s]]++;
    }
}
