# Multiplication and division.
        .org 0xFFFFFF10
        .word start, 0x800              # the first instruction, the PRCB
        .org 0x800
        .word 0x900, 0xA00, 0, 0x40000000, 0x2000, 0xB00, 0, 0x3000, 0, 0
        .org 0x1000
start:  mov 7, g0
        mov 3, g1
loop:   muli g0, g1, g2
        divo g1, g2, g3
        b loop
