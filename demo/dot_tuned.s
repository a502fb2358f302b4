# The sum of the products of eight pairs of words, with the loop as `tune` prints it.

        .org    0xFFFFFF10
        .word   start

        .org    0x1000
start:  lda     first, g0
        lda     second, g1
        mov     0, g5
        mov     8, g6
loop:
        ld (g0), g2 # 00001018 90942000
        addo 4, g0, g0 # 0000101C 59840804
        ld (g1), g3 # 00001020 909C6000
        addo 4, g1, g1 # 00001024 598C4804
        mulo g2, g3, g4 # 00001028 70A4C092
        subo 1, g6, g6 # 0000102C 59B58901
        addo g4, g5, g5 # 00001030 59AD4014
        cmpobne 0, g6, loop
done:   lda     0xE0000000, g7
        st      g5, 4(g7)       # ends the run with the sum

        .org    0x2000
first:  .word   1, 2, 3, 4, 5, 6, 7, 8
second: .word   8, 7, 6, 5, 4, 3, 2, 1
