/* From where the emulator enters, in 32 bits by an ELF note, to C in 64 bits; and the way in and out of interrupts. */

    .section .note.pvh, "a", @note
    .long 4, 4, 18
    .asciz "Xen"
    .long start

    .text
    .code32
    .globl start
start:
    cli
    cld
    mov $main_stack, %esp
    /* The first gigabyte as it lies, in pages of 2 MB. */
    movl $pages_of_gigabytes + 3, pages
    movl $large_pages + 3, pages_of_gigabytes
    mov $large_pages, %edi
    mov $0x83, %eax
    mov $512, %ecx
1:  mov %eax, (%edi)
    movl $0, 4(%edi)
    add $0x200000, %eax
    add $8, %edi
    loop 1b
    mov $pages, %eax
    mov %eax, %cr3
    /* Large addresses, and the registers of 128 bits, which the library uses. */
    mov %cr4, %eax
    or $0x620, %eax
    mov %eax, %cr4
    mov $0xC0000080, %ecx
    rdmsr
    or $0x100, %eax
    wrmsr
    mov %cr0, %eax
    and $0xFFFFFFFB, %eax
    or $0x80000003, %eax
    mov %eax, %cr0
    lgdt segments_at
    ljmp $8, $start_64

    .code64
start_64:
    mov $16, %eax
    mov %eax, %ds
    mov %eax, %es
    mov %eax, %ss
    mov $main_stack, %rsp
    call kernel_main
1:  hlt
    jmp 1b

/* The timer: all registers are put on the interrupt's stack as a Frame, which C may exchange for another thread's. */
    .globl on_interrupt
on_interrupt:
    push %rax
    push %rbx
    push %rcx
    push %rdx
    push %rsi
    push %rdi
    push %rbp
    push %r8
    push %r9
    push %r10
    push %r11
    push %r12
    push %r13
    push %r14
    push %r15
    mov %rsp, %rdi
    cld
    call on_timer
    pop %r15
    pop %r14
    pop %r13
    pop %r12
    pop %r11
    pop %r10
    pop %r9
    pop %r8
    pop %rbp
    pop %rdi
    pop %rsi
    pop %rdx
    pop %rcx
    pop %rbx
    pop %rax
    iretq

    .globl on_fault
on_fault:
    mov %cr2, %rdi
    call fault
1:  hlt
    jmp 1b

    .data
    .balign 8
    .globl segments
segments:
    .quad 0, 0x00AF9A000000FFFF, 0x00CF92000000FFFF, 0, 0
segments_at:
    .word . - segments - 1
    .quad segments

    .bss
    .balign 4096
    .globl large_pages
pages:
    .skip 4096
pages_of_gigabytes:
    .skip 4096
large_pages:
    .skip 4096
    .balign 16
    .skip 65536
main_stack:

    .section .note.GNU-stack, "", @progbits
