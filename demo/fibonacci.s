# Prints the Fibonacci numbers from the 0th to the 15th, each worked out by a procedure that calls itself: up to 15 deep,
# which is deeper than there are register sets, so frames are spilled to memory and read back from it.

        .set  console, 0xE0000000
        .set  most, 15

        .org  0xFFFFFF10
        .word start, prcb
        .org  0x800
prcb:   .word 0x900, 0xA00, 0, 0x40000000       # fault table, control table, AC, fault configuration
        .word 0x2000, 0xB00, 0, 0x3000          # interrupt table, system procedures, reserved, stack
        .word 0, 0

        .org  0x1000
start:  lda   console, g13
        mov   0, g12
each:   mov   g12, g0
        call  fibonacci
        mov   g1, g0
        call  digits
        mov   10, g2            # a line feed
        stob  g2, (g13)
        addo  1, g12, g12
        cmpobge most, g12, each
        st    g1, 4(g13)        # ends the run with the last number

# The number g0, in g1.
fibonacci:
        cmpobl 1, g0, deeper
        mov   g0, g1
        ret
deeper: mov   g0, r4
        subo  1, r4, g0
        call  fibonacci
        mov   g1, r5
        subo  2, r4, g0
        call  fibonacci
        addo  r5, g1, g1
        ret

# Prints g0 in decimal digits.
digits: remo  10, g0, r5
        divo  10, g0, g0
        cmpobe 0, g0, last
        call  digits
last:   lda   48(r5), r5        # 0 is 48
        stob  r5, (g13)
        ret
