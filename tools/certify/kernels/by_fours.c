/* Adds 1 to each word of n bytes, as long as four are left. */
void _start(unsigned *a, unsigned n) {
    for (; n >= 4; n -= 4) (*a++)++;
}
