/* Adds 1 to each word of n bytes: the count is n >> 2. */
void _start(unsigned *a, unsigned n) {
    for (unsigned i = 0; i < n >> 2; i++) a[i]++;
}
