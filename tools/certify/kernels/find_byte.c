/* How many bytes stand before the first zero, at most n. */
void _start(const unsigned char *a, unsigned n, unsigned *out) {
    unsigned left = n;
    while (left && *a) a++, left--;
    *out = n - left;
}
