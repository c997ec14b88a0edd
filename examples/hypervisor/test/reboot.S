# A guest that reboots once. It prints what the Status register of its console holds, which is 0 after a reset, and
# writes it. Whether it was here before it keeps in a page of RAM, which a reboot leaves as it is.
    li t0, 0x80001000
    ld t1, 0(t0)
    addi t2, t1, 1
    sd t2, 0(t0)
    li t0, 0x10001070
    lw t2, 0(t0)
    li t3, 3
    sw t3, 0(t0)
    addi a0, t2, '0'
    li a7, 1            # print a byte
    ecall
    li a7, 0x53525354   # reset the system
    li a6, 0
    li a1, 0
    li a0, 1            # reboot it
    beqz t1, 1f
    li a0, 0            # end it
1:  ecall
2:  j 2b
