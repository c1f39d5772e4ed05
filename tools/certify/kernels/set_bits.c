/* How many bits of x are set, by x & (x - 1). */
void _start(unsigned x, unsigned *out) {
    unsigned bits = 0;
    for (; x; x &= x - 1) bits++;
    *out = bits;
}
