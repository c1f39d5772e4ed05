/* Adds 1 to each word of n bytes and puts 0 into the last: the count is n >> 2, and a register keeps where it ends. */
void _start(unsigned *a, unsigned n) {
    unsigned words = n >> 2;
    asm("" : "+r"(words));
    if (!words) return;
    unsigned *last = a + words - 1;
    for (; words; words--) (*a++)++;
    *last = 0;
}
