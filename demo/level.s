# Firmware that polls a pin, and serves a device that holds another one low. It waits until pin 3 goes low and then
# until it is high again, prints `v` and `^` for that, and lets pin 0 in. Its handler counts, and is entered as long as
# the device is not served; the run ends with the count.

        .set  console, 0xE0000000
        .set  control_table, 0xA00
        .set  interrupt_table, 0x2000

        .org  0xFFFFFF10
        .word start, prcb
        .org  0x800
prcb:   .word 0x900, control_table, 0, 0x40000000       # fault table, control table, AC, fault configuration
        .word interrupt_table, 0xB00, 0, 0x3000         # interrupt table, system procedures, reserved, stack
        .word 0, 0
        .org  control_table+0x10
        .word 1, 0, 0, 0        # pin 0 has vector 18; every pin is detected by its level
        .org  interrupt_table+0x4C
        .word serve

        .org  0x1000
start:  lda   console, g5
down:   mov   sf0, g0
        bbc   3, g0, down       # until pin 3 is low
        lda   0x76, g1
        stob  g1, (g5)
up:     mov   sf0, g0
        bbs   3, g0, up         # until it is high
        lda   0x5E, g1
        stob  g1, (g5)
        mov   1, sf1            # pin 0 is not masked
        lda   0x1F0000, g1
        mov   0, g2
        modpc 0, g1, g2         # and let in
        st    g12, 4(g5)        # ends the run with the count

serve:  addo  1, g12, g12
        ret
