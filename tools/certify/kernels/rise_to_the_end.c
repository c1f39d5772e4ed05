/* The sum of n halves by a pointer below an end: nothing falls. */
void _start(const unsigned short *a, unsigned n, unsigned *out) {
    unsigned sum = 0;
    for (const unsigned short *p = a, *end = a + n; p < end; p++) sum += *p;
    *out = sum;
}
