# Prints a line through a serial port: before each byte it waits until the port's status says that it is ready. There is no
# such device here, so the image has the status as a byte of data, which always says so.

        .set  transmit, 0xE0000000      # where the port takes a byte: the console
        .set  status, 0xB0000005        # bit 5: ready for the next byte

        .org  0xFFFFFF10
        .word start, prcb
        .org  0x800
prcb:   .word 0x900, 0xA00, 0, 0x40000000       # fault table, control table, AC, fault configuration
        .word 0x2000, 0xB00, 0, 0x3000          # interrupt table, system procedures, reserved, stack
        .word 0, 0

        .org  status
        .byte 0x20

        .org  0x1000
start:  lda   transmit, g4
        lda   status, g5
        lda   text, g6
next:   ldob  (g6), r4
        cmpobe 0, r4, done
wait:   ldob  (g5), r5
        bbc   5, r5, wait
        stob  r4, (g4)
        addo  1, g6, g6
        b     next
done:   st    r4, 4(g4)         # ends the run with 0

text:   .ascii "ready\n"
        .byte 0
