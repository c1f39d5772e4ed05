# Adds up the a1 bytes at a0, modulo 2^32, and leaves the sum in the four bytes at a3. a2 is not passed, so it is 0 at the start.
    .text
    .globl  _start
_start:
    beqz    a1, end
loop:
    lbu     t0, 0(a0)
    addi    a0, a0, 1
    add     a2, a2, t0
    addi    a1, a1, -1
    bnez    a1, loop
end:
    sw      a2, 0(a3)
    ret
