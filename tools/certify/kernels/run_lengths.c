/* Unpacks n bytes of counts and values into `room` bytes; what is full is left at once. */
void _start(const unsigned char *in, unsigned n, unsigned char *out, unsigned room) {
    for (; n >= 2; n -= 2, in += 2)
        for (unsigned count = in[0]; count; count--, room--) {
            if (!room) return;
            *out++ = in[1];
        }
}
