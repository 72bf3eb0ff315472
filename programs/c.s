# C: one core stores 9 to memory, loads it again, and says what it loaded.

        .cores 1
        .lines 8

        .equ    place, 128      # a name for a number; it is not a place in the source

        li      t0, 9
        sw      t0, place(zero)
        lw      t1, place(zero)
        lui     t2, 0x40000
        sw      t1, 0(t2)
        ebreak
