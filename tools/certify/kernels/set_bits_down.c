/* The same, with a count that falls from 32, and the two conditions kept apart. */
void _start(unsigned x, unsigned *out) {
    unsigned bits = 0;
    for (unsigned left = 32; left; left--) {
        asm volatile("" : "+r"(left));
        if (!x) break;
        x &= x - 1;
        bits++;
    }
    *out = bits;
}
