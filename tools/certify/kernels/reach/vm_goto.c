#include <stddef.h>
#include <stdint.h>
void KERNEL(int32_t *stack, const uint8_t *code, uint32_t n, uint32_t budget)
{
    static const void *const labels[8] = { &&nop, &&push, &&add, &&sub, &&mul, &&dup, &&swap, &&jump };
    uint32_t pc = 0, sp = 0;
next:
    if (!budget-- || pc >= n) return;
    goto *labels[code[pc++] & 7];
nop: goto next;
push: if (sp < 16 && pc < n) stack[sp++] = code[pc++]; goto next;
add: if (sp >= 2) { sp--; stack[sp - 1] += stack[sp]; } goto next;
sub: if (sp >= 2) { sp--; stack[sp - 1] -= stack[sp]; } goto next;
mul: if (sp >= 2) { sp--; stack[sp - 1] *= stack[sp]; } goto next;
dup: if (sp && sp < 16) { stack[sp] = stack[sp - 1]; sp++; } goto next;
swap: if (sp >= 2) { int32_t t = stack[sp - 1]; stack[sp - 1] = stack[sp - 2]; stack[sp - 2] = t; } goto next;
jump: if (pc < n) pc = code[pc] % n; goto next;
}
