/* The sum of n bytes by a pointer that falls to the start. */
void _start(const unsigned char *a, unsigned n, unsigned *out) {
    unsigned sum = 0;
    const unsigned char *p = a + n;
    while (p != a) sum += *--p;
    *out = sum;
}
