#include <stdint.h>
/* handlers in a table of function pointers, called by each byte */
struct machine { int32_t *stack; uint32_t depth; uint32_t error; int32_t *out; };
typedef void (*handler)(struct machine *, uint32_t);
static void op_push(struct machine *m, uint32_t arg)
{
    if (m->depth < 64) m->stack[m->depth++] = arg;
    else m->error = 1;
}
static int need(struct machine *m, uint32_t n)
{
    if (m->depth >= n) return 1;
    m->error = 2;
    return 0;
}
static void op_add(struct machine *m, uint32_t arg) { if (need(m, 2)) { m->depth--; m->stack[m->depth - 1] += m->stack[m->depth]; } }
static void op_sub(struct machine *m, uint32_t arg) { if (need(m, 2)) { m->depth--; m->stack[m->depth - 1] -= m->stack[m->depth]; } }
static void op_mul(struct machine *m, uint32_t arg) { if (need(m, 2)) { m->depth--; m->stack[m->depth - 1] *= m->stack[m->depth]; } }
static void op_dup(struct machine *m, uint32_t arg) { if (need(m, 1)) op_push(m, m->stack[m->depth - 1]); }
static void op_drop(struct machine *m, uint32_t arg) { if (need(m, 1)) m->depth--; }
static void op_pick(struct machine *m, uint32_t arg) { if (need(m, arg + 1)) op_push(m, m->stack[m->depth - 1 - arg]); }
static void op_sum(struct machine *m, uint32_t arg)
{
    int32_t sum = 0;
    while (m->depth) sum += m->stack[--m->depth];
    op_push(m, sum);
}
static const handler handlers[8] = { op_push, op_add, op_sub, op_mul, op_dup, op_drop, op_pick, op_sum };
void KERNEL(const uint8_t *code, uint32_t n, int32_t *stack, int32_t *out)
{
    struct machine m = { stack, 0, 0, out };
    uint32_t pc;
    for (pc = 0; pc < n && !m.error; pc++) handlers[code[pc] & 7](&m, code[pc] >> 3);
    out[0] = m.error ? -(int32_t)m.error : (int32_t)m.depth;
    out[1] = pc;
}
