# The same where the byte at a0 is below that at a1.
        .globl  kernel
kernel: mv      t3, a0
        mv      t4, a1
        mv      t5, a2
1:      vsetvli t0, t5, e8, m8, ta, ma
        vle8.v  v8, (t3)
        vle8.v  v16, (t4)
        vmsltu.vv v0, v8, v16
        vadd.vv v8, v8, v16, v0.t
        vse8.v  v8, (t3)
        add     t3, t3, t0
        add     t4, t4, t0
        sub     t5, t5, t0
        bnez    t5, 1b
        addi    a3, a3, -1
        bnez    a3, kernel
        ret
