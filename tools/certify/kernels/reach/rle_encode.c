#include <stddef.h>
#include <stdint.h>
void KERNEL(uint8_t *out, const uint8_t *in, size_t n, uint32_t *len)
{
    size_t i = 0, o = 0;
    while (i < n) {
        uint8_t v = in[i];
        size_t run = 1;
        while (i + run < n && in[i + run] == v && run < 255)
            run++;
        out[o++] = run;
        out[o++] = v;
        i += run;
    }
    *len = o;
}
