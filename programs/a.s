# A: one core says 7.
#
# A core says a word to the outside by storing it to 0x40000000, and stops at ebreak.

        .cores 1                # how many cores run this, 1 to 4 (1 if not said)
        .lines 8                # how many lines of 32 bytes memory has (as many as are needed, if not said)

        li      t0, 7
        lui     t1, 0x40000     # t1 = 0x40000000
        sw      t0, 0(t1)       # says 7
        ebreak                  # and stops
