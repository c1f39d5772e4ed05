# Adds 1 to each of the a2 words at a0, a3 times, one by one.
        .globl  kernel
kernel: mv      t0, a0
        mv      t1, a2
1:      lw      t2, 0(t0)
        addi    t2, t2, 1
        sw      t2, 0(t0)
        addi    t0, t0, 4
        addi    t1, t1, -1
        bnez    t1, 1b
        addi    a3, a3, -1
        bnez    a3, kernel
        ret
