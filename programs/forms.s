# Every form that asm reads, at least once. It is here to be looked at, and to hold asm to GNU as; it is not meant to be run.

        .cores 2
        .lines 32

        .equ    small, 0x10
        .set    less, small - 17        # names, numbers, plus and minus: modulo 2^32
        .equ    mask, 0XfF

# RV32I
start:  lui     x5, 0xfffff
        lui     t1, %hi(far)
        auipc   x6, 1
        jal     start
        jal     x0, 1f
        jal     s11, start + 8
        jalr    x1
        jalr    ra, 4(t0)
        jalr    zero, %lo(far)(t1)
        jalr    t0, t1, -4
        beq     a0, a1, start
        bne     a2, a3, 1f
        blt     a4, a5, 1f
        bge     a6, a7, start
        bltu    s0, fp, 1f
        bgeu    s1, s2, start
1:      lb      x7, -2048(x8)
        lh      x9, 2047(sp)
        lw      x10, (gp)
        lbu     x11, small(tp)
        lhu     x12, %lo(far)(x13)
        sb      x14, 0(x15)
        sh      x16, -2(x17)
        sw      x18, less(x19)
        addi    x20, x21, -2048
        slti    x22, x23, 2047
        sltiu   x24, x25, small
        xori    x26, x27, less
        ori     x28, x29, mask
        andi    x30, x31, %lo(far)
        slli    s3, s4, 0
        srli    s5, s6, 31
        srai    s7, s8, small
        add     s9, s10, t3
        sub     t4, t5, t6
        sll     x1, x2, x3
        slt     x4, x5, x6
        sltu    x7, x8, x9
        xor     x10, x11, x12
        srl     x13, x14, x15
        sra     x16, x17, x18
        or      x19, x20, x21
        and     x22, x23, x24
        fence
        ecall
        ebreak
        mret

# exchanges of a word, also with marks for order
        amoadd.w        a0, a1, (a2)
        amoadd.w.aq     a0, a1, (a2)
        amoadd.w.rl     a0, a1, (a2)
        amoadd.w.aqrl   a0, a1, (a2)
        amoswap.w       t0, t1, (t2)
        amoswap.w.aq    t0, t1, (t2)
        amoswap.w.rl    t0, t1, (t2)
        amoswap.w.aqrl  t0, t1, (t2)

# what stands for other instructions
        nop
        li      a0, 0
        li      a1, -2048
        li      a2, 2047
        li      a3, 2048
        li      a4, 0x12345678
        li      a5, 0xfffff800
        li      a6, 0x7ffff000
        li      a7, -1
        la      s0, far
        la      s1, start + 4
        mv      s2, s3
        not     s4, s5
        neg     s6, s7
        seqz    s8, s9
        snez    s10, s11
        sltz    t0, t1
        sgtz    t2, t3
        j       2f
        jr      t4
        ret
        call    far
        tail    start
        beqz    a0, 2f
        bnez    a1, 2f
        bltz    a2, 2f
        bgez    a3, 2f
        bgtz    a4, 2f
        blez    a5, 2f
        bgt     a6, a7, 2f
        ble     t5, t6, 2f
        bgtu    ra, sp, 2f
        bleu    gp, tp, 2f
2:      j       2b

# data
        .byte   1, -1, 255, mask
        .half   0x1234, -2
        .word   0x89abcdef, start, far - start, far + 4
        .align  4
        .word   4294967295
        .org    0x3e0
far:    .word   -2147483648
