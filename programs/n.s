# N: each of four cores loads a word from each of eight lines of its own, and says their sum: 108, 188, 268 and 348.
#
# Each line is read once, so this is a program that waits for memory nearly all the time.

        .cores 4
        .lines 40

        slli    t0, a0, 8       # eight lines have 256 bytes
        addi    t0, t0, 256     # the first line of this core: the lines of core 0 begin at 256
        addi    t1, t0, 256     # the end of its lines
1:      lw      t2, 0(t0)
        add     t3, t3, t2
        addi    t0, t0, 32
        bne     t0, t1, 1b
        lui     t4, 0x40000
        sw      t3, 0(t4)
        ebreak

        .org    256             # the lines of core 0
        .word   10, 0, 0, 0, 0, 0, 0, 0
        .word   11, 0, 0, 0, 0, 0, 0, 0
        .word   12, 0, 0, 0, 0, 0, 0, 0
        .word   13, 0, 0, 0, 0, 0, 0, 0
        .word   14, 0, 0, 0, 0, 0, 0, 0
        .word   15, 0, 0, 0, 0, 0, 0, 0
        .word   16, 0, 0, 0, 0, 0, 0, 0
        .word   17, 0, 0, 0, 0, 0, 0, 0

        .org    512             # the lines of core 1
        .word   20, 0, 0, 0, 0, 0, 0, 0
        .word   21, 0, 0, 0, 0, 0, 0, 0
        .word   22, 0, 0, 0, 0, 0, 0, 0
        .word   23, 0, 0, 0, 0, 0, 0, 0
        .word   24, 0, 0, 0, 0, 0, 0, 0
        .word   25, 0, 0, 0, 0, 0, 0, 0
        .word   26, 0, 0, 0, 0, 0, 0, 0
        .word   27, 0, 0, 0, 0, 0, 0, 0

        .org    768             # the lines of core 2
        .word   30, 0, 0, 0, 0, 0, 0, 0
        .word   31, 0, 0, 0, 0, 0, 0, 0
        .word   32, 0, 0, 0, 0, 0, 0, 0
        .word   33, 0, 0, 0, 0, 0, 0, 0
        .word   34, 0, 0, 0, 0, 0, 0, 0
        .word   35, 0, 0, 0, 0, 0, 0, 0
        .word   36, 0, 0, 0, 0, 0, 0, 0
        .word   37, 0, 0, 0, 0, 0, 0, 0

        .org    1024             # the lines of core 3
        .word   40, 0, 0, 0, 0, 0, 0, 0
        .word   41, 0, 0, 0, 0, 0, 0, 0
        .word   42, 0, 0, 0, 0, 0, 0, 0
        .word   43, 0, 0, 0, 0, 0, 0, 0
        .word   44, 0, 0, 0, 0, 0, 0, 0
        .word   45, 0, 0, 0, 0, 0, 0, 0
        .word   46, 0, 0, 0, 0, 0, 0, 0
        .word   47, 0, 0, 0, 0, 0, 0, 0
