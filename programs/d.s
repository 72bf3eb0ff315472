# D: each of four cores says its own number, which it has in a0 when it starts. All cores start at address 0.

        .cores 4
        .lines 8

        lui     t2, 0x40000
        sw      a0, 0(t2)
        ebreak
