/* The greatest of n bytes, and then each byte taken from it: two loops, one behind the other. */
void _start(unsigned char *a, unsigned n) {
    unsigned most = 0;
    for (unsigned i = 0; i < n; i++)
        if (a[i] > most) most = a[i];
    for (unsigned i = 0; i < n; i++) a[i] = most - a[i];
}
