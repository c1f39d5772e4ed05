/* The sum of n bytes by a pointer that rises to the end, of which the compiler makes a count that falls. */
void _start(const unsigned char *a, unsigned n, unsigned *out) {
    unsigned sum = 0;
    for (const unsigned char *end = a + n; a != end; a++) sum += *a;
    *out = sum;
}
