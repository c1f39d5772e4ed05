#include <stdint.h>
/* struct line in a buffer; a canvas of 64 by 64 with clipping by pixel */
struct line { int16_t x0, y0, x1, y1; };
static int iabs(int v) { return v < 0 ? -v : v; }
void KERNEL(uint8_t *canvas, const struct line *lines, uint32_t n, uint32_t colour)
{
    for (const struct line *l = lines; l < lines + n; l++) {
        int x0 = l->x0, y0 = l->y0, x1 = l->x1, y1 = l->y1;
        int dx = iabs(x1 - x0), sx = x0 < x1 ? 1 : -1;
        int dy = -iabs(y1 - y0), sy = y0 < y1 ? 1 : -1;
        int err = dx + dy, e2;
        for (;;) {
            if ((unsigned)x0 < 64 && (unsigned)y0 < 64) canvas[y0 * 64 + x0] = colour;
            if (x0 == x1 && y0 == y1) break;
            e2 = 2 * err;
            if (e2 >= dy) { err += dy; x0 += sx; }
            if (e2 <= dx) { err += dx; y0 += sy; }
        }
    }
}
