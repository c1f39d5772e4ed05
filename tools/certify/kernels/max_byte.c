/* The greatest of n bytes. */
void _start(const unsigned char *a, unsigned n, unsigned *out) {
    unsigned most = 0;
    for (unsigned i = 0; i < n; i++)
        if (a[i] > most) most = a[i];
    *out = most;
}
