#include <stddef.h>
#include <stdint.h>
enum state { LINE, SECTION, KEY, VALUE, COMMENT };
struct entry { uint16_t key, key_len, value, value_len; };
void KERNEL(struct entry *entries, const char *text, uint32_t n, uint32_t *count)
{
    enum state state = LINE;
    uint32_t used = 0, start = 0;
    struct entry e = { 0, 0, 0, 0 };
    for (uint32_t i = 0; i < n; i++) {
        char c = text[i];
        switch (state) {
        case LINE:
            if (c == '[') state = SECTION;
            else if (c == ';' || c == '#') state = COMMENT;
            else if (c != '\n' && c != ' ') { state = KEY; start = i; }
            break;
        case SECTION: if (c == '\n') state = LINE; break;
        case COMMENT: if (c == '\n') state = LINE; break;
        case KEY:
            if (c == '=') { e.key = start; e.key_len = i - start; start = i + 1; state = VALUE; }
            else if (c == '\n') state = LINE;
            break;
        case VALUE:
            if (c == '\n') {
                e.value = start;
                e.value_len = i - start;
                if (used < 256) entries[used++] = e;
                state = LINE;
            }
            break;
        }
    }
    *count = used;
}
