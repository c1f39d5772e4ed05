#include <stdint.h>
/* in order, with a stack in place of a recursion; -1 is none */
struct tree { int16_t left, right; int32_t key, weight, pad; };
void KERNEL(const struct tree *nodes, int32_t root, int32_t *keys, uint32_t *count)
{
    int16_t stack[64];
    int top = 0;
    int at = root;
    uint32_t n = 0;
    while ((at >= 0 || top > 0) && n < 256) {
        while (at >= 0 && at < 256) {
            if (top == 64) { *count = ~0u; return; }
            stack[top++] = at;
            at = nodes[at].left;
        }
        if (top == 0) break;
        at = stack[--top];
        keys[n++] = nodes[at].key;
        at = nodes[at].right;
    }
    *count = n;
}
