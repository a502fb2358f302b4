# Prints the letter A at the console, and ends the run with the word 7.

        .org    0xFFFFFF10      # the boot record: the first instruction, and the PRCB at 0, which is all zeros
        .word   start

        .org    0x1000
start:  lda     0x41, g4
        lda     0xE0000000, g5  # the console
        stob    g4, (g5)
        mov     7, g4
        st      g4, 4(g5)       # the exit word
