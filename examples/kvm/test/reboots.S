# A guest in ring 3 that reboots again and again. It prints a dot at the UART, and writes pages one after another,
# of which each has to be zeros, as it is after a reboot: else it prints an X. It takes its time, so that a move
# ends while some pages are not written anew: those that were sent before a reboot have to come as zeros.
    .section .text.start, "ax"
    movl $0x3f8, %edx
    movb $'.', %al
    outb %al, %dx
    movl $0x200000, %ebx
    movl $500, %ecx
1:  cmpl $0, (%rbx)
    je 2f
    movb $'X', %al
    outb %al, %dx
2:  movl $1, (%rbx)
    addl $0x1000, %ebx
    movl $1000, %esi
3:  pause
    decl %esi
    jnz 3b
    loop 1b
    movl $0x64, %edx
    movb $0xfe, %al
    outb %al, %dx
4:  jmp 4b
