/* Puts one value into n bytes. */
void _start(unsigned char *a, unsigned n, unsigned value) {
    for (unsigned i = 0; i < n; i++) a[i] = value;
}
