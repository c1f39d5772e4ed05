# Adds 1 to each of the a1 bytes at a0, modulo 256, where a2 is 1, and leaves them as they are where it is 0: a loop over
# strips whose body branches.
    .text
    .globl  _start
_start:
    beqz    a1, end
loop:
    vsetvli t0, a1, e8, m1, ta, ma
    vle8.v  v8, (a0)
    beqz    a2, join
    vadd.vi v8, v8, 1
join:
    vse8.v  v8, (a0)
    add     a0, a0, t0
    sub     a1, a1, t0
    bnez    a1, loop
end:
    ret
