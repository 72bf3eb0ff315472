# O: cores 0 and 1 each add 1 to one word 200 times, and say it when it is 400. Cores 2 and 3 stop at once.
#
# Both want the word's line to write all the time, so it goes back and forth between their caches.

        .cores 4
        .lines 8

        sltiu   t0, a0, 2
        beqz    t0, stop        # cores 2 and 3
        la      t1, counter
        li      t2, 200         # how many times are left
        li      t3, 1
add:    amoadd.w zero, t3, (t1)
        addi    t2, t2, -1
        bnez    t2, add
        li      t4, 400
wait:   lw      t5, 0(t1)       # the other core may not be done yet
        bne     t5, t4, wait
        lui     t6, 0x40000
        sw      t5, 0(t6)
stop:   ebreak

        .align  5
counter:
        .word   0
