/* The machine: see machine.h. Nothing of it is particular to the dispatcher. */
#include "machine.h"

#include <stdarg.h>

static inline void out8(uint16_t port, uint8_t value) { __asm__ volatile("outb %0, %1" ::"a"(value), "Nd"(port)); }

static inline void out32(uint16_t port, uint32_t value) { __asm__ volatile("outl %0, %1" ::"a"(value), "Nd"(port)); }

static inline uint8_t in8(uint16_t port) {
    uint8_t value;
    __asm__ volatile("inb %1, %0" : "=a"(value) : "Nd"(port));
    return value;
}

/* What compiled C and the library may call. */
void *memcpy(void *to, const void *from, size_t n) {
    void *start = to;
    __asm__ volatile("rep movsb" : "+D"(to), "+S"(from), "+c"(n)::"memory");
    return start;
}

void *memset(void *to, int value, size_t n) {
    void *start = to;
    __asm__ volatile("rep stosb" : "+D"(to), "+c"(n) : "a"(value) : "memory");
    return start;
}

void *memmove(void *to, const void *from, size_t n) {
    uint8_t *t = to;
    const uint8_t *f = from;
    if (t <= f) {
        return memcpy(to, from, n);
    }
    while (n-- > 0) {
        t[n] = f[n];
    }
    return to;
}

int memcmp(const void *a, const void *b, size_t n) {
    const uint8_t *x = a, *y = b;
    for (size_t i = 0; i < n; i++) {
        if (x[i] != y[i]) {
            return x[i] < y[i] ? -1 : 1;
        }
    }
    return 0;
}

static void put(char c) {
    while ((in8(0x3FD) & 0x20) == 0) {
    }
    out8(0x3F8, (uint8_t)c);
}

static void put_number(int64_t number) {
    char digits[20];
    size_t n = 0;
    uint64_t rest = number < 0 ? (uint64_t)-number : (uint64_t)number;
    if (number < 0) {
        put('-');
    }
    do {
        digits[n++] = (char)('0' + rest % 10);
        rest /= 10;
    } while (rest > 0);
    while (n > 0) {
        put(digits[--n]);
    }
}

void print(const char *text, ...) {
    va_list numbers;
    va_start(numbers, text);
    for (; *text != 0; text++) {
        if (*text == '%') {
            put_number(va_arg(numbers, int64_t));
        } else {
            put(*text);
        }
    }
    va_end(numbers);
}

void power_off(uint32_t code) {
    out32(0xF4, code);
    for (;;) {
        __asm__ volatile("cli; hlt");
    }
}

void fault(uint64_t address) {
    print("fault at %\n", (int64_t)address);
    power_off(2);
}

/* The interrupt's stack lies in pages of 4 KB, the one below it is not there. */
#define GUARD ((uint8_t *)0x2000000)
#define BOTTOM (GUARD + 4096)
#define TOP (BOTTOM + INTERRUPT_STACK)
#define PAINT 0xA5

extern uint64_t large_pages[512];
extern uint64_t segments[5];
extern void on_interrupt(void), on_fault(void);

static _Alignas(4096) uint64_t small_pages[512];
static _Alignas(16) uint8_t fault_stack[4096];

static struct {
    uint32_t reserved;
    uint64_t stacks[3];
    uint64_t more;
    uint64_t interrupt_stacks[7];
    uint64_t last;
    uint16_t none, ports;
} __attribute__((packed)) task_state;

static struct {
    uint16_t low, segment;
    uint8_t stack, kind;
    uint16_t middle;
    uint32_t high, reserved;
} gates[48];

static void gate(size_t vector, void (*to)(void), uint8_t stack) {
    uint64_t at = (uint64_t)to;
    gates[vector].low = (uint16_t)at;
    gates[vector].segment = 8;
    gates[vector].stack = stack;
    gates[vector].kind = 0x8E;
    gates[vector].middle = (uint16_t)(at >> 16);
    gates[vector].high = (uint32_t)(at >> 32);
}

static void make_stacks(void) {
    for (size_t i = 1; i < 512; i++) {
        small_pages[i] = ((uint64_t)GUARD + 4096 * i) | 3;
    }
    large_pages[(uint64_t)GUARD >> 21] = (uint64_t)small_pages | 3;
    __asm__ volatile("mov %%cr3, %%rax; mov %%rax, %%cr3" ::: "rax", "memory");
    memset(BOTTOM, PAINT, INTERRUPT_STACK);
    task_state.interrupt_stacks[0] = (uint64_t)TOP;
    task_state.interrupt_stacks[1] = (uint64_t)(fault_stack + sizeof fault_stack);
    task_state.ports = sizeof task_state;
    uint64_t at = (uint64_t)&task_state;
    segments[3] = (sizeof task_state - 1) | (at & 0xFFFFFF) << 16 | 0x89ULL << 40 | (at >> 24 & 0xFF) << 56;
    segments[4] = at >> 32;
    __asm__ volatile("ltr %w0" ::"r"(24));
}

size_t interrupt_stack_used(void) {
    uint8_t *at = BOTTOM;
    while (at < TOP && *at == PAINT) {
        at++;
    }
    return (size_t)(TOP - at);
}

void make_thread(Frame *thread, void (*function)(uint64_t), uint64_t number, void *stack_end) {
    *thread = (Frame){
        .rdi = number,
        .rip = (uint64_t)function,
        .cs = 8,
        .rflags = 0x202,
        .rsp = (uint64_t)stack_end - 8,
        .ss = 16,
    };
}

void start_timer(void) {
    make_stacks();
    for (size_t vector = 0; vector < 32; vector++) {
        gate(vector, on_fault, 2);
    }
    gate(32, on_interrupt, 1);
    struct {
        uint16_t size;
        void *at;
    } __attribute__((packed)) table = {sizeof gates - 1, gates};
    __asm__ volatile("lidt %0" ::"m"(table));
    /* The two interrupt controllers from vector 32 on, the timer alone let through, 1,000 times a second. */
    static const uint8_t set_up[][2] = {{0x20, 0x11}, {0xA0, 0x11}, {0x21, 32}, {0xA1, 40}, {0x21, 4},
                                        {0xA1, 2},    {0x21, 1},    {0xA1, 1},  {0x21, 0xFE}, {0xA1, 0xFF}};
    for (size_t i = 0; i < sizeof set_up / sizeof set_up[0]; i++) {
        out8(set_up[i][0], set_up[i][1]);
    }
    out8(0x43, 0x34);
    out8(0x40, 1193 & 0xFF);
    out8(0x40, 1193 >> 8);
    __asm__ volatile("sti");
}
