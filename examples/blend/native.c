/* Writes the inputs of blend, and what it must leave: the same C, compiled for the machine that builds. */
#include <stdio.h>

#define _start blend
#include "blend.c"

enum { COUNT = 1000, ALPHA = 77 };

static void put(const char *path, const uint8_t *bytes)
{
    FILE *file = fopen(path, "wb");
    fwrite(bytes, 1, COUNT, file);
    fclose(file);
}

int main(void)
{
    static uint8_t a[COUNT], b[COUNT], to[COUNT];
    for (int i = 0; i < COUNT; i++) {
        a[i] = (uint8_t)(37 * i + i / 7);
        b[i] = (uint8_t)(255 - i * i / 3);
    }
    put("a.bin", a);
    put("b.bin", b);
    put("zeros.bin", to);
    blend(to, a, b, COUNT, ALPHA);
    put("expected.bin", to);
    return 0;
}
