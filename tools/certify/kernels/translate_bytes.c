/* Translates n bytes by a table of 256. */
void _start(const unsigned char *table, unsigned char *a, unsigned n) {
    for (unsigned i = 0; i < n; i++) a[i] = table[a[i]];
}
