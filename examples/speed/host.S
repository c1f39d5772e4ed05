# The process around a kernel under qemu-riscv32: two buffers, the same arguments, and then exit.
        .globl  _start
_start: la      a0, to
        la      a1, from
        li      a2, COUNT
        li      a3, TIMES
        call    kernel
        li      a0, 0
        li      a7, 93
        ecall
        .bss
to:     .space  1 << 24
from:   .space  1 << 24
