#include <stdint.h>
void KERNEL(uint8_t *world, uint8_t *other, int generations, int w, int h)
{
    uint8_t *now = world, *next = other;
    for (int i = 0; i < w * h; i++) now[i] = now[i] > 9;
    for (int g = 0; g < generations; g++) {
        for (int y = 0; y < h; y++)
            for (int x = 0; x < w; x++) {
                int n = 0;
                for (int y1 = y - 1; y1 <= y + 1; y1++)
                    for (int x1 = x - 1; x1 <= x + 1; x1++)
                        if (now[(y1 + h) % h * w + (x1 + w) % w]) n++;
                if (now[y * w + x]) n--;
                next[y * w + x] = n == 3 || (n == 2 && now[y * w + x]);
            }
        uint8_t *t = now; now = next; next = t;
    }
    if (now != world)
        for (int i = 0; i < w * h; i++) world[i] = now[i];
}
