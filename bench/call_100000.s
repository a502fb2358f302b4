# Calls and returns below 100,000 frames that stay live.
        .org 0xFFFFFF10
        .word start, 0x800              # the first instruction, the PRCB
        .org 0x800
        .word 0x900, 0xA00, 0, 0x40000000, 0x2000, 0xB00, 0, 0x3000, 0, 0
        .org 0x1000
start:  lda 100000, g0
        call down
down:   subo 1, g0, g0                  # a call for each frame, three instructions each
        cmpobe 0, g0, loop
        call down
loop:   call leaf
        b loop
leaf:   addo 1, g1, g1
        ret
