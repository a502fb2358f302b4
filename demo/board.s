# A small board. It prints its banner, counts the ticks of a timer at pin 0, and has DMA channel 0 copy the banner. Once
# the timer has ticked twice and the copy is there, it prints the copy and ends with the number of ticks.

        .set  console, 0xE0000000
        .set  copy, 0x4000
        .set  control_table, 0xA00
        .set  interrupt_table, 0x2000

        .org  0xFFFFFF10
        .word start, prcb
        .org  0x800
prcb:   .word 0x900, control_table, 0, 0x40000000       # fault table, control table, AC, fault configuration
        .word interrupt_table, 0xB00, 0, 0x3000         # interrupt table, system procedures, reserved, stack
        .word 0, 0
        .org  control_table+0x10
        .word 1, 0, 2           # pin 0 has vector 18, DMA channel 0 has vector 34
        .org  interrupt_table+0x4C
        .word tick
        .org  interrupt_table+0x8C
        .word copied

        .org  0x1000
start:  lda   banner, g0
        call  print
        lda   0x101, g1         # pin 0 and DMA channel 0
        mov   g1, sf1           # are not masked
        lda   0x1F0000, g1
        mov   0, g2
        modpc 0, g1, g2         # and let in
        mov   8, r4             # eight bytes
        lda   banner, r5        # from here
        lda   copy, r6          # to here
        lda   66, r7            # in units of four bytes, with an interrupt at the end
        sdma  0, r7, r4
        mov   1, sf2            # enables channel 0
wait:   cmpobg 2, g12, wait
        cmpobne 1, g13, wait
        lda   copy, g0
        call  print
        lda   console, g5
        st    g12, 4(g5)        # ends the run

# Prints the bytes from g0 on, up to a zero.
print:  lda   console, r5
next:   ldob  (g0), r4
        cmpobe 0, r4, printed
        stob  r4, (r5)
        addo  1, g0, g0
        b     next
printed:
        ret

# The handlers.
tick:   addo  1, g12, g12
        ret
copied: mov   1, g13
        ret

banner: .ascii "i960CA\n"
        .byte 0
