# A guest in ring 3 that drives the console, and waits for what is typed at the UART, as one with a login there does. It
# prints a dot, the byte that comes, and powers off.
    .section .text.start, "ax"
    movl $0xd0000070, %ebx
    movl $0, (%rbx)
    movl $3, (%rbx)
    movl $1, -0x4c(%rbx)
    movl $1, -0x50(%rbx)
    movl $0xb, (%rbx)
    movl $0xf, (%rbx)
    movl $0x3f9, %edx
    movb $1, %al
    outb %al, %dx
    decl %edx
    movb $'.', %al
    outb %al, %dx
    movl $0x3fd, %edx
1:  pause
    inb %dx, %al
    testb $1, %al
    jz 1b
    movl $0x3f8, %edx
    inb %dx, %al
    outb %al, %dx
    movl $0x604, %edx
    movl $0x2000, %eax
    outw %ax, %dx
2:  jmp 2b
