/* The machine: the serial line, the timer, interrupts on a small stack with a guard below it, and the way out. */
#ifndef MACHINE_H
#define MACHINE_H

#include <stddef.h>
#include <stdint.h>

/* What an interrupted thread is: its registers, and where it goes on. */
typedef struct Frame {
    uint64_t r15, r14, r13, r12, r11, r10, r9, r8, rbp, rdi, rsi, rdx, rcx, rbx, rax;
    uint64_t rip, cs, rflags, rsp, ss;
} Frame;

/* The stack that the timer's interrupt runs on, in bytes, and how much of it has been used so far. */
#define INTERRUPT_STACK 8192
size_t interrupt_stack_used(void);

/* Makes a thread that runs a function with a number on a stack of its own. */
void make_thread(Frame *thread, void (*function)(uint64_t), uint64_t number, void *stack_end);

/* Sets up interrupts and the timer; from then on on_timer is called. */
void start_timer(void);

/* Called for each tick of the timer, with the interrupted thread, which may be exchanged for another. */
void on_timer(Frame *thread);

/* Prints a text, numbers in place of each %. */
void print(const char *text, ...);

/* Ends the machine with a code. */
_Noreturn void power_off(uint32_t code);

#endif
