# B: one core adds 10, 9, .., 1 and says the sum, 55.

        .cores 1
        .lines 8

        li      t0, 0           # the sum so far
        li      t1, 10          # the number to add next
loop:
        add     t0, t0, t1
        addi    t1, t1, -1
        bnez    t1, loop
        lui     t2, 0x40000
        sw      t0, 0(t2)
        ebreak
