/* Copies n words. */
void _start(unsigned *to, const unsigned *from, unsigned n) {
    for (unsigned i = 0; i < n; i++) to[i] = from[i];
}
