# Adds a2 to each of the a1 bytes at a0. Where a sum is above 255, 255 is left. a2 is at most 255.
    .text
    .globl  _start
_start:
    beqz    a1, end
loop:
    vsetvli t0, a1, e8, m2, ta, mu
    vle8.v  v8, (a0)
    vadd.vx v8, v8, a2
    vmsltu.vx v0, v8, a2            # a sum modulo 256 is below a2 exactly where it was above 255
    vor.vi  v8, v8, -1, v0.t        # 255 there; the other elements stay
    vse8.v  v8, (a0)
    add     a0, a0, t0
    sub     a1, a1, t0
    bnez    a1, loop
end:
    ret
