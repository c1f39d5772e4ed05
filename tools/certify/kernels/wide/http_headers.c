#include <stdint.h>
/* picohttpparser's task: pointers into the text, continued lines, and a number below 0 where it is bad */
struct phr_header { uint16_t name, name_len, value, value_len; };
#define CHECK_EOF() if (buf == buf_end) return -2;
#define IS_PRINTABLE(c) ((unsigned char)(c) - 040u < 0137u)
static const char token_char_map[] =
    "\0\0\0\0\0\0\0\0\0\0\0\0\0\0\0\0\0\0\0\0\0\0\0\0\0\0\0\0\0\0\0\0"
    "\0\1\0\1\1\1\1\1\0\0\1\1\0\1\1\0\1\1\1\1\1\1\1\1\1\1\0\0\0\0\0\0"
    "\0\1\1\1\1\1\1\1\1\1\1\1\1\1\1\1\1\1\1\1\1\1\1\1\1\1\1\0\0\0\1\1"
    "\1\1\1\1\1\1\1\1\1\1\1\1\1\1\1\1\1\1\1\1\1\1\1\1\1\1\1\0\1\0\1\0"
    "\0\0\0\0\0\0\0\0\0\0\0\0\0\0\0\0\0\0\0\0\0\0\0\0\0\0\0\0\0\0\0\0"
    "\0\0\0\0\0\0\0\0\0\0\0\0\0\0\0\0\0\0\0\0\0\0\0\0\0\0\0\0\0\0\0\0"
    "\0\0\0\0\0\0\0\0\0\0\0\0\0\0\0\0\0\0\0\0\0\0\0\0\0\0\0\0\0\0\0\0"
    "\0\0\0\0\0\0\0\0\0\0\0\0\0\0\0\0\0\0\0\0\0\0\0\0\0\0\0\0\0\0\0\0";
static int parse_headers(const char *base, const char *buf, const char *buf_end, struct phr_header *headers, uint32_t *num, uint32_t max)
{
    for (;; ++*num) {
        CHECK_EOF();
        if (*buf == '\r') {
            ++buf;
            CHECK_EOF();
            if (*buf++ != '\n') return -1;
            break;
        } else if (*buf == '\n') {
            ++buf;
            break;
        }
        if (*num == max) return -1;
        if (!(*num != 0 && (*buf == ' ' || *buf == '\t'))) {
            headers[*num].name = buf - base;
            while (token_char_map[(unsigned char)*buf]) {
                ++buf;
                CHECK_EOF();
            }
            if (*buf != ':') return -1;
            headers[*num].name_len = buf - base - headers[*num].name;
            ++buf;
            for (;; ++buf) {
                CHECK_EOF();
                if (!(*buf == ' ' || *buf == '\t')) break;
            }
        } else {
            headers[*num].name = 0;
            headers[*num].name_len = 0;
        }
        const char *value = buf;
        for (;; ++buf) {
            CHECK_EOF();
            if (!IS_PRINTABLE(*buf) && *buf != '\t') break;
        }
        const char *value_end = buf;
        if (*buf == '\r') {
            ++buf;
            CHECK_EOF();
            if (*buf++ != '\n') return -1;
        } else if (*buf == '\n') {
            ++buf;
        } else return -1;
        while (value_end != value && (value_end[-1] == ' ' || value_end[-1] == '\t')) value_end--;
        headers[*num].value = value - base;
        headers[*num].value_len = value_end - value;
    }
    return buf - base;
}
void KERNEL(const char *text, uint32_t n, struct phr_header *headers, int32_t *got)
{
    uint32_t num = 0;
    int r = parse_headers(text, text, text + n, headers, &num, 256);
    *got = r < 0 ? r : r << 8 | num;
}
