# Puts 5 into each byte of the a1 rows of 64 bytes at a0: a loop over strips within a loop over rows.
    .text
    .globl  _start
_start:
    beqz    a1, end
outer:
    mv      t3, a0
    li      t2, 64
inner:
    vsetvli t0, t2, e8, m1, ta, ma
    vmv.v.i v8, 5
    vse8.v  v8, (t3)
    add     t3, t3, t0
    sub     t2, t2, t0
    bnez    t2, inner
    addi    a0, a0, 64
    addi    a1, a1, -1
    bnez    a1, outer
end:
    ret
