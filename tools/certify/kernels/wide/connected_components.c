#include <stdint.h>
/* two passes with union-find; pixels above 8 are ink */
static uint16_t parent[520];
static uint16_t find(uint16_t x)
{
    while (parent[x] != x) {
        parent[x] = parent[parent[x]];
        x = parent[x];
    }
    return x;
}
void KERNEL(uint16_t *labels, const uint8_t *image, uint32_t w, uint32_t h, uint32_t *count)
{
    uint16_t next = 1;
    for (uint32_t y = 0; y < h; y++) {
        for (uint32_t x = 0; x < w; x++) {
            uint32_t at = y * w + x;
            if (image[at] <= 8) {
                labels[at] = 0;
                continue;
            }
            uint16_t left = x ? labels[at - 1] : 0, up = y ? labels[at - w] : 0;
            if (!left && !up) {
                parent[next] = next;
                labels[at] = next++;
            } else if (left && up) {
                uint16_t a = find(left), b = find(up);
                if (a < b) parent[b] = a;
                else parent[a] = b;
                labels[at] = a < b ? a : b;
            } else {
                labels[at] = left ? left : up;
            }
        }
    }
    uint32_t n = 0;
    for (uint32_t i = 1; i < next; i++) if (parent[i] == i) n++;
    for (uint32_t i = 0; i < w * h; i++) if (labels[i]) labels[i] = find(labels[i]);
    *count = n;
}
