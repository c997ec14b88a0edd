# A guest that reboots again and again, and prints a dot each time. Each second time it writes a page of its image.
# Each other time it looks whether that page is as the image has it, since a reboot loads it anew, and prints an X
# where it is not. It writes other pages too, so that a round of a move takes about as long as it is up. How often
# it was here it counts in a page of RAM, which a reboot leaves as it is.
    li a0, '.'
    li a7, 1            # print a byte
    ecall
    li t0, 0x80001000
    ld t1, 0(t0)
    addi t2, t1, 1
    sd t2, 0(t0)
    andi t1, t1, 1
    li t2, 0x80201000
    bnez t1, 1f
    sd t0, 0(t2)
1:  li t3, 0x80280000   # 320 other pages
    li t4, 0x803c0000
    li t5, 0x1000
2:  sd t0, 0(t3)
    add t3, t3, t5
    bltu t3, t4, 2b
    li t3, 100000
3:  beqz t1, 4f
    ld t4, 0(t2)
    beqz t4, 4f
    li a0, 'X'
    li a7, 1
    ecall
4:  addi t3, t3, -1
    bnez t3, 3b
    li a7, 0x53525354   # reset the system
    li a6, 0
    li a1, 0
    li a0, 1            # reboot it
    ecall
5:  j 5b
