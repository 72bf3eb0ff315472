# Q: core 0 stores 1, 2, .., 100 to one word, and waits each time till core 1 has put the number into another word; at the end it says it, 100.
# Cores 2 and 3 stop at once.
#
# The two words lie in lines of their own: each line is written by one core and read by the other.

        .cores 4
        .lines 8

        la      t0, there
        la      t1, back
        li      t2, 100
        beqz    a0, ask
        li      t3, 1
        beq     a0, t3, copy
        ebreak                  # cores 2 and 3

ask:                            # core 0
        addi    t3, t3, 1       # the next number; t3 is 0 at the start
        sw      t3, 0(t0)
1:      lw      t4, 0(t1)
        bne     t4, t3, 1b      # core 1 has not put it there yet
        bne     t3, t2, ask
        lui     t5, 0x40000
        sw      t4, 0(t5)
        ebreak

copy:                           # core 1; t4 is the number that it has put last, 0 at the start
        lw      t3, 0(t0)
        beq     t3, t4, copy    # nothing new yet
        sw      t3, 0(t1)
        mv      t4, t3
        bne     t3, t2, copy
        ebreak

        .align  5
there:  .word   0
        .align  5
back:   .word   0
