# The part of harness.c that can't be C: start, entering a state, and reading what the C compiler does not know.
    .globl _start, enter, leave, save_vectors, read_vlenb
    .text
_start:
    la sp, stack_top
    call serve
    li a7, 93
    ecall

# enter(vectors, vl, vtype, vcsr, to): loads the vector state and goes to the trampoline, which loads x1 to x31. leave() comes back here.
enter:
    la t0, saved
    sw ra, 0(t0)
    sw sp, 4(t0)
    sw gp, 8(t0)
    sw tp, 12(t0)
    sw s0, 16(t0)
    sw s1, 20(t0)
    sw s2, 24(t0)
    sw s3, 28(t0)
    sw s4, 32(t0)
    sw s5, 36(t0)
    sw s6, 40(t0)
    sw s7, 44(t0)
    sw s8, 48(t0)
    sw s9, 52(t0)
    sw s10, 56(t0)
    sw s11, 60(t0)
    csrw vstart, x0
    csrr t1, vlenb
    slli t1, t1, 3
    vsetivli x0, 1, e8, m1, tu, mu
    vl8re8.v v0, (a0)
    add a0, a0, t1
    vl8re8.v v8, (a0)
    add a0, a0, t1
    vl8re8.v v16, (a0)
    add a0, a0, t1
    vl8re8.v v24, (a0)
    csrw vcsr, a3
    vsetvl x0, a1, a2
    jr a4

leave:
    la t0, saved
    lw ra, 0(t0)
    lw sp, 4(t0)
    lw gp, 8(t0)
    lw tp, 12(t0)
    lw s0, 16(t0)
    lw s1, 20(t0)
    lw s2, 24(t0)
    lw s3, 28(t0)
    lw s4, 32(t0)
    lw s5, 36(t0)
    lw s6, 40(t0)
    lw s7, 44(t0)
    lw s8, 48(t0)
    lw s9, 52(t0)
    lw s10, 56(t0)
    lw s11, 60(t0)
    ret

# save_vectors(out): vl, vtype, vcsr, then v0 to v31. vstart is what a fault in the middle of an access leaves.
save_vectors:
    csrr t0, vl
    sw t0, 0(a0)
    csrr t0, vtype
    sw t0, 4(a0)
    csrr t0, vcsr
    sw t0, 8(a0)
    addi a0, a0, 12
    csrw vstart, x0
    csrr t1, vlenb
    slli t1, t1, 3
    vsetivli x0, 1, e8, m1, tu, mu
    vs8r.v v0, (a0)
    add a0, a0, t1
    vs8r.v v8, (a0)
    add a0, a0, t1
    vs8r.v v16, (a0)
    add a0, a0, t1
    vs8r.v v24, (a0)
    ret

read_vlenb:
    csrr a0, vlenb
    ret

    .bss
    .balign 16
saved:
    .space 64
stack:
    .space 65536
stack_top:
