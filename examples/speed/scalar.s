# Six scalar instructions a turn, a2 turns.
        .globl  kernel
kernel: li      t1, 0
1:      add     t1, t1, a2
        xor     t2, t1, a2
        srli    t3, t2, 3
        add     t1, t1, t3
        addi    a2, a2, -1
        bnez    a2, 1b
        ret
