# What a bzImage of the test begins with at its 64-bit entry, with the zero page in RSI. It prints a b at the UART
# if the header is there, and the first bytes of the arguments, of the initial RAM disk and of the RSDP. Then it
# reboots where a BIOS begins, by instructions that mean the same in 64 bits.
    movl 0x202(%rsi), %eax
    cmpl $0x53726448, %eax
    jne 1f
    movw $0x3f8, %dx
    movb $'b', %al
    outb %al, %dx
    movl 0x228(%rsi), %ebx
    movb (%rbx), %al
    outb %al, %dx
    movl 0x218(%rsi), %ebx
    movb (%rbx), %al
    outb %al, %dx
    movq 0x70(%rsi), %rbx
    movb (%rbx), %al
    outb %al, %dx
1:  movl $0xffff0, %eax
    jmp *%rax
