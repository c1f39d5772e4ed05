/* Adds 1 to each word of n bytes: the count is n >> 2, and a register keeps it through the loop. */
void _start(unsigned *a, unsigned n) {
    unsigned words = n >> 2;
    asm("" : "+r"(words));
    for (unsigned left = words; left; left--) (*a++)++;
    asm("" ::"r"(words));
}
