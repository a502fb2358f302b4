# The loop of alu.s, with a handler for pin 0.
        .org 0xFFFFFF10
        .word start, 0x800              # the first instruction, the PRCB
        .org 0x800
        .word 0x900, 0xA00, 0, 0x40000000, 0x2000, 0xB00, 0, 0x3000, 0, 0
        .org 0xA10
        .word 1                         # pin 0 has vector 18
        .org 0x204C
        .word handler                   # of vector 18
        .org 0x1000
start:  lda 0x1F0000, g0
        mov 0, g1
        modpc g0, g0, g1                # priority 0 lets the interrupt in
        mov 1, sf1                      # and pin 0 is not masked
        mov 1, g0
        mov 3, g1
loop:   addo g0, g1, g2
        xor g2, g1, g3
        shlo 3, g3, g4
        subo g4, g2, g5
        addo g5, 7, g0
        cmpo g0, g1
        addo 1, g1, g1
        b loop
handler: ret
