# Prints a dot at each tick of a timer at pin 0, and ends after ten with their number.

        .set  console, 0xE0000000
        .set  interrupt_table, 0x2000
        .set  control_table, 0xA00

        .org  0xFFFFFF10
        .word start, prcb
        .org  0x800
prcb:   .word 0x900, control_table, 0, 0x40000000       # fault table, control table, AC, fault configuration
        .word interrupt_table, 0xB00, 0, 0x3000         # interrupt table, system procedures, reserved, stack
        .word 0, 0
        .org  control_table+0x10
        .word 1                 # pin 0 has vector 18
        .org  interrupt_table+0x4C
        .word tick

        .org  0x1000
start:  lda   console, g13
        mov   0, g12
        mov   0, r4             # how many dots were printed
        mov   1, sf1            # pin 0 is not masked
        lda   0x1F0000, g1
        mov   0, g2
        modpc 0, g1, g2         # and let in
wait:   cmpobe r4, g12, wait
        addo  1, r4, r4
        lda   0x2E, g3          # a dot
        stob  g3, (g13)
        cmpobg 10, r4, wait
        st    g12, 4(g13)       # ends the run

tick:   addo  1, g12, g12
        ret
