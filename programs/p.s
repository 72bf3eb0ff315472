# P: each of four cores reads one word 1000 times, adds what it reads, and says the sum, 3000.
#
# Nobody writes the word, so each cache gets its line once, to read, and keeps it.

        .cores 4
        .lines 8

        la      t0, shared
        li      t1, 1000        # how many times are left
loop:   lw      t2, 0(t0)
        add     t3, t3, t2
        addi    t1, t1, -1
        bnez    t1, loop
        lui     t4, 0x40000
        sw      t3, 0(t4)
        ebreak

        .align  5
shared:
        .word   3
