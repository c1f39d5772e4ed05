/* Writes 0, 1, 2, .. into n words, with a count that falls beside the index. */
void _start(unsigned *a, unsigned n) {
    for (unsigned i = 0; n; n--) {
        *a++ = i++;
        asm("" : "+r"(n));
    }
}
