/* The same with both conditions in one. */
void _start(const unsigned char *in, unsigned n, unsigned char *out, unsigned room) {
    for (; n >= 2; n -= 2, in += 2)
        for (unsigned count = in[0]; count && room; count--, room--) *out++ = in[1];
}
