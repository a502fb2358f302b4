# `show` prints r4 of its caller, which it reads in the caller's frame once that is in memory.

        .org    0xFFFFFF10      # the boot record: the first instruction, and the PRCB
        .word   start, 0x800

        .org    0x800           # the PRCB
        .word   0x900           # fault table
        .word   0xA00           # control table
        .word   0               # arithmetic controls
        .word   0x40000000      # fault configuration: no fault where an access is unaligned
        .word   0x2000          # interrupt table
        .word   0xB00           # system procedure table
        .word   0
        .word   0x3000          # interrupt stack, on which the firmware starts
        .word   0
        .word   0               # register cache

        .org    0x1000
start:  lda     0x41, r4        # the letter A, in a local register
        call    show
        lda     0xE0000000, g5
        mov     0, g4
        st      g4, 4(g5)       # ends the run with the word 0

show:   flushreg                # writes all saved frames to memory
        ld      16(pfp), g4     # the caller's r4, 16 bytes into its frame
        lda     0xE0000000, g5
        stob    g4, (g5)        # prints it
        ret
