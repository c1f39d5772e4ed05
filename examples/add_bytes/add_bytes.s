# Adds the a2 bytes at a1 to those at a0, modulo 256, and leaves the sums at a0.
# a2 is at most the bytes of one vector register.
    .text
    .globl  _start
_start:
    vsetvli t0, a2, e8, m1, ta, ma
    vle8.v  v8, (a0)
    vle8.v  v16, (a1)
    vadd.vv v8, v8, v16
    vse8.v  v8, (a0)
    ecall
