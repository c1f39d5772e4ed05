#include <stdint.h>
/* fills pixels that are less than 14 from a seed, in the order of a queue */
void KERNEL(uint8_t *px, int w, int h, int sx, int sy, int colour, uint16_t *queue, int32_t *filled)
{
    static const int8_t dx[4] = { 1, -1, 0, 0 }, dy[4] = { 0, 0, 1, -1 };
    int head = 0, tail = 0;
    *filled = 0;
    if (sx >= w || sy >= h || px[sy * w + sx] >= 14) return;
    px[sy * w + sx] = 0x80 | colour;
    queue[tail++] = sy * w + sx;
    while (head != tail) {
        int at = queue[head++];
        int x = at % w, y = at / w;
        for (int k = 0; k < 4; k++) {
            int nx = x + dx[k], ny = y + dy[k];
            if (nx < 0 || ny < 0 || nx >= w || ny >= h) continue;
            uint8_t *p = &px[ny * w + nx];
            if (*p >= 14) continue;
            *p = 0x80 | colour;
            queue[tail++] = ny * w + nx;
        }
    }
    *filled = tail;
}
