# Translates each of the a3 bytes at a1 by the table at a0, which has 128 bytes, and leaves what it finds at a2. Of a byte above 127
# the low seven bits count.
    .text
    .globl  _start
_start:
    li      t2, 127
    beqz    a3, end
loop:
    vsetvli t0, a3, e8, m1, ta, ma
    vle8.v  v8, (a1)
    vand.vx v8, v8, t2
    vluxei8.v v9, (a0), v8
    vse8.v  v9, (a2)
    add     a1, a1, t0
    add     a2, a2, t0
    sub     a3, a3, t0
    bnez    a3, loop
end:
    ret
