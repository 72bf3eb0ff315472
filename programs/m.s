# M: each of four cores adds 1000, 999, .., 1 in a loop of three instructions, and says the sum, 500500.
#
# The program of each core lies in a cache line of its own, so that no core waits for another once it is there. A line has room for eight
# instructions, and .align 5 goes on to the next one.

        .cores 4
        .lines 8

        slli    t0, a0, 5       # a line has 32 bytes
        jalr    zero, 32(t0)    # core 0 goes to line 1, core 1 to line 2, and so on

        .align  5               # core 0
        li      t1, 1000        # the number to add next; t2, the sum so far, is 0 at the start
1:      add     t2, t2, t1
        addi    t1, t1, -1
        bnez    t1, 1b
        lui     t3, 0x40000
        sw      t2, 0(t3)
        ebreak

        .align  5               # core 1
        li      t1, 1000        # the number to add next; t2, the sum so far, is 0 at the start
1:      add     t2, t2, t1
        addi    t1, t1, -1
        bnez    t1, 1b
        lui     t3, 0x40000
        sw      t2, 0(t3)
        ebreak

        .align  5               # core 2
        li      t1, 1000        # the number to add next; t2, the sum so far, is 0 at the start
1:      add     t2, t2, t1
        addi    t1, t1, -1
        bnez    t1, 1b
        lui     t3, 0x40000
        sw      t2, 0(t3)
        ebreak

        .align  5               # core 3
        li      t1, 1000        # the number to add next; t2, the sum so far, is 0 at the start
1:      add     t2, t2, t1
        addi    t1, t1, -1
        bnez    t1, 1b
        lui     t3, 0x40000
        sw      t2, 0(t3)
        ebreak
