# G: one core waits for an interrupt, and then says where it was.
#
# A store of 1 to 0x40000004 lets interrupts. One that is taken goes on at 0x40, and the address at which it came is loaded from 0x40000008.
# On the steady board no interrupt line goes up, so there this program runs for ever: try it with choices.

        .cores 1
        .lines 8

        li      t0, 1
        lui     t2, 0x40000
        sw      t0, 4(t2)       # interrupts are let from here on
wait:
        j       wait            # at address 12

        .org    0x40            # where an interrupt goes
        lw      t0, 8(t2)       # where it came: 12
        sw      t0, 0(t2)
        ebreak
