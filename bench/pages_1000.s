# Stores over 1,000 pages of 256 bytes.
        .org 0xFFFFFF10
        .word start, 0x800              # the first instruction, the PRCB
        .org 0x800
        .word 0x900, 0xA00, 0, 0x40000000, 0x2000, 0xB00, 0, 0x3000, 0, 0
        .org 0x1000
start:  lda 0x10000, g0
        lda 256, g1
        lda 1000, g3
begin:  mov g3, g2
        mov g0, g4
loop:   st g2, (g4)
        addo g1, g4, g4
        subo 1, g2, g2
        cmpobne 0, g2, loop
        b begin
