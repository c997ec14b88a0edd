# A kernel of the test with an entry for PVH, 32 bits, with the start info in EBX. It prints a p at the UART if the
# start info is there, and the first bytes of the arguments, of the initial RAM disk and of the RSDP. Then it powers
# off by the sleep control register.
    .section .note.Xen, "a", @note
    .long 4, 4, 18
    .asciz "Xen"
    .long _start
    .text
    .code32
    .globl _start
_start:
    cmpl $0x336ec578, (%ebx)
    jne 1f
    movw $0x3f8, %dx
    movb $'p', %al
    outb %al, %dx
    movl 24(%ebx), %ecx
    movb (%ecx), %al
    outb %al, %dx
    movl 16(%ebx), %ecx
    movl (%ecx), %ecx
    movb (%ecx), %al
    outb %al, %dx
    movl 32(%ebx), %ecx
    movb (%ecx), %al
    outb %al, %dx
1:  movw $0x600, %dx
    movb $0x34, %al
    outb %al, %dx
2:  jmp 2b
