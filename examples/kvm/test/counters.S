# A guest in ring 0 that looks for the counters of AMD that have no bit of CPUID, MSRs 0xc0010000 to 0xc0010007: it
# writes each, and reads it. At the UART it prints a dot for one that faults or reads as zero, and a C for one that has
# a value. Then it powers off.
    .section .text.start, "ax"
    .globl start
start:
    lgdt descriptors
    lea on_fault, %rax
    movw %ax, gates + 13 * 16
    shrq $16, %rax
    movw %ax, gates + 13 * 16 + 6
    lidt interrupts
    movl $0xc0010000, %ecx
1:  movl $0x530076, %eax
    xorl %edx, %edx
    wrmsr
    xorl %eax, %eax
    xorl %edx, %edx
    rdmsr
    orl %edx, %eax
    movb $'.', %al
    jz 2f
    movb $'C', %al
2:  movw $0x3f8, %dx
    outb %al, %dx
    incl %ecx
    cmpl $0xc0010008, %ecx
    jne 1b
    movw $0x604, %dx
    movw $0x2000, %ax
3:  outw %ax, %dx
    jmp 3b

# Goes on after the instruction, of two bytes, that faulted.
on_fault:
    addq $8, %rsp
    addq $2, (%rsp)
    iretq

    .data
    .balign 16
segments:
    .quad 0, 0x00af9a000000ffff, 0x00cf92000000ffff
gates:
    .fill 13 * 16, 1, 0
    .word 0, 8, 0x8e00, 0
    .quad 0
descriptors:
    .word gates - segments - 1
    .quad segments
interrupts:
    .word descriptors - gates - 1
    .quad gates
