#include <stdint.h>
/* with the partners of brackets worked out first on a stack */
void KERNEL(uint8_t *out, const char *code, int n, uint8_t *tape, uint32_t *written)
{
    int16_t partner[256], stack[32];
    int top = 0, ptr = 0, used = 0;
    *written = 0;
    for (int i = 0; i < n; i++) {
        partner[i] = -1;
        if (code[i] == '[') {
            if (top == 32) return;
            stack[top++] = i;
        } else if (code[i] == ']') {
            if (top == 0) return;
            int open = stack[--top];
            partner[i] = open;
            partner[open] = i;
        }
    }
    if (top) return;
    for (int i = 0; i < 256; i++) tape[i] = 0;
    for (int pc = 0; pc < n; pc++) {
        switch (code[pc]) {
        case '>': ptr = (ptr + 1) & 255; break;
        case '<': ptr = (ptr - 1) & 255; break;
        case '+': tape[ptr]++; break;
        case '-': tape[ptr]--; break;
        case '.': if (used < 1024) out[used++] = tape[ptr]; break;
        case '[': if (!tape[ptr]) pc = partner[pc]; break;
        case ']': if (tape[ptr]) pc = partner[pc]; break;
        }
    }
    *written = used;
}
