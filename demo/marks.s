# Copies a part of its stack, as a dump or a switch of tasks does, with the frames of routines that have returned,
# and prints a text out of the copy. It adds up the words of the copy too, and keeps the sum behind it. The words of
# those frames are stale: they are marked, and so is the sum. The run goes on, since none of them decides anything.

        .set  console, 0xE0000000
        .set  stack, 0x3000
        .set  copy, 0x5000

        .org  0xFFFFFF10
        .word start, prcb
        .org  0x800
prcb:   .word 0x900, 0xA00, 0, 0x40000000       # fault table, control table, AC, fault configuration
        .word 0x2000, 0xB00, 0, stack           # interrupt table, system procedures, reserved, stack
        .word 0, 0

        .org  0x1000
start:  call  work
        lda   stack, g0         # from here
        lda   copy, g1          # to here
        lda   36, g2            # so many words
        mov   0, g4
next:   ld    (g0), g3
        st    g3, (g1)
        addo  g3, g4, g4        # the sum
        addo  4, g0, g0
        addo  4, g1, g1
        subo  1, g2, g2
        cmpobne 0, g2, next
        st    g4, (g1)          # behind the copy
        lda   copy+0x80, g0     # the text, which was at stack+0x80
        lda   console, g5
each:   ldob  (g0), g6
        cmpobe 0, g6, done
        stob  g6, (g5)
        addo  1, g0, g0
        b     each
done:   st    g6, 4(g5)         # ends the run with 0

# Leaves a text on the stack, above its frame, which is at stack+0x40.
work:   lda   16(sp), sp
        lda   0x000A6B6F, r4    # the letters o and k, and a line feed
        st    r4, 64(fp)
        call  leaf
        ret
leaf:   ret
