# A byte to the console.
        .org 0xFFFFFF10
        .word start, 0x800              # the first instruction, the PRCB
        .org 0x800
        .word 0x900, 0xA00, 0, 0x40000000, 0x2000, 0xB00, 0, 0x3000, 0, 0
        .org 0x1000
start:  lda 0xE0000000, g0
        lda 0x41, g1
loop:   stob g1, (g0)
        b loop
