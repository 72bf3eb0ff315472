# E: each of two cores adds 1 to one word and says what it was before: one says 0, the other 1.
#
# amoadd.w loads the word, adds to it and stores the sum, and no other core comes between.

        .cores 2
        .lines 8

        .equ    counter, 128    # the word has the value 0 when the cores start

        li      t0, 1
        li      t1, counter
        amoadd.w t2, t0, (t1)   # t2 = the word as it was
        lui     t3, 0x40000
        sw      t2, 0(t3)
        ebreak
