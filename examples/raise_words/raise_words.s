# Adds 1 to each of the a1 words at a0, modulo 2^32: a loop over strips, of as many words as a vector register holds.
    .text
    .globl  _start
_start:
    beqz    a1, end
loop:
    vsetvli t0, a1, e32, m1, ta, ma
    vle32.v v8, (a0)
    vadd.vi v8, v8, 1
    vse32.v v8, (a0)
    slli    t1, t0, 2
    add     a0, a0, t1
    sub     a1, a1, t0
    bnez    a1, loop
end:
    ret
