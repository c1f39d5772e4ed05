/* The sum of bytes m to n by a pointer that falls to one that is not known. */
void _start(const unsigned char *a, unsigned n, unsigned m, unsigned *out) {
    unsigned sum = 0;
    for (const unsigned char *p = a + n, *first = a + m; p > first;) sum += *--p;
    *out = sum;
}
