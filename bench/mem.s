# Loads and stores of a byte, a word and four words.
        .org 0xFFFFFF10
        .word start, 0x800              # the first instruction, the PRCB
        .org 0x800
        .word 0x900, 0xA00, 0, 0x40000000, 0x2000, 0xB00, 0, 0x3000, 0, 0
        .org 0x1000
start:  lda 0x4000, g0
loop:   ld (g0), g1
        addo 1, g1, g1
        st g1, (g0)
        ldob 4(g0), g2
        stob g2, 5(g0)
        ldq 16(g0), g4
        stq g4, 32(g0)
        b loop
