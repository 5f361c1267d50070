/* Prints the bytes of stack that each export takes, on the inputs of stack_inputs.h, all of which are full.
 *
 * A call is made on a thread whose stack was painted first. What it takes is
 * - its arguments by value, which the caller puts on the stack, and
 * - below them everything from the return address down to the lowest byte that is no longer paint.
 * The place of the result is the caller's and is not counted. Where the arguments end is told by a probe: a function of
 * the same type that is called from the same place first.
 *
 * With a number as its argument the program fails where an export takes more bytes than that. A new export is one
 * EXPORT line and one line of the table below. stack.sh builds and runs this. */
#include "stack_inputs.h"

#include <pthread.h>

/* What the stack is painted with. */
enum { PAINT = 0xA5 };

static _Alignas(4096) uint8_t stack[1 << 20];
static uint8_t *at_call;   /* where the stack ends just before the call, arguments included */
static uint8_t *at_caller; /* the caller's frame: the same with the probe and with the export */

/* An export, its type and parameters, and the arguments that it is called with here. */
#define EXPORT(name, type, parameters, arguments)                                            \
    static type result_of_##name;                                                            \
    __attribute__((noinline)) static type probe_##name parameters {                          \
        at_call = __builtin_dwarf_cfa();                                                     \
        return result_of_##name;                                                             \
    }                                                                                        \
    static type(*volatile called_##name) parameters;                                         \
    __attribute__((noinline)) static void call_##name(int probe) {                           \
        at_caller = __builtin_frame_address(0);                                              \
        called_##name = probe ? probe_##name : name;                                         \
        result_of_##name = called_##name arguments;                                          \
    }

EXPORT(cs_read, CsRead, (const uint8_t *b, size_t n), (bytes, sizeof bytes))
EXPORT(cs_check, CsRefusal, (CsPlan p), (plan))
EXPORT(cs_write, CsRefusal, (CsGuest g, uint32_t at, uint8_t *b, size_t n), (plan.guests[7], 7, buffer, sizeof buffer))
EXPORT(cs_find, CsRefusal, (const uint8_t *b, size_t n, uint32_t id), (bytes, sizeof bytes, GUESTS))
EXPORT(cs_guest_verdict, CsVerdict, (CsPlan p, uint32_t id), (plan, GUESTS))
EXPORT(cs_task_verdict, CsVerdict, (CsPlan p, uint32_t id, uint32_t task), (plan, GUESTS, TASKS))
EXPORT(cs_accept, CsVerdict, (CsPlan p), (plan))
EXPORT(cs_smallest_capacity, CsVerdict, (CsPlan p, uint32_t id), (wide, GUESTS))
EXPORT(cs_order, CsOrdered, (CsPlan p, uint32_t id), (unordered, GUESTS))
EXPORT(cs_least_capacities, CsChosen, (CsPlan p), (wide))
EXPORT(cs_fresh, CsStart, (CsPlan p), (plan))
EXPORT(cs_release, CsReleased, (CsDispatcher d, uint32_t id, uint32_t task), (states, GUESTS, TASKS))
EXPORT(cs_tick, CsTicked, (CsDispatcher d), (states))
EXPORT(cs_sheet, CsReleased, (CsDispatcher d, const uint64_t *p, size_t n, uint32_t *a, size_t room),
       (states, pairs, CS_MOST_PAIRS, answers, CS_MOST_PAIRS))
EXPORT(cs_amended_find, CsLocated, (const uint8_t *p, size_t n, const uint8_t *s, size_t m, uint32_t id),
       (bytes, sizeof bytes, amendments, sizeof amendments, GUESTS))
EXPORT(cs_amended_guest_verdict, CsVerdict, (const uint8_t *p, size_t n, const uint8_t *s, size_t m, uint32_t id),
       (bytes, sizeof bytes, amendments, sizeof amendments, GUESTS))
EXPORT(cs_amended_task_verdict, CsVerdict,
       (const uint8_t *p, size_t n, const uint8_t *s, size_t m, uint32_t id, uint32_t task),
       (bytes, sizeof bytes, amendments, sizeof amendments, GUESTS, TASKS))
EXPORT(cs_amended_accept, CsVerdict, (const uint8_t *p, size_t n, const uint8_t *s, size_t m),
       (bytes, sizeof bytes, amendments, sizeof amendments))
EXPORT(cs_amended_smallest_capacity, CsVerdict, (const uint8_t *p, size_t n, const uint8_t *s, size_t m, uint32_t id),
       (bytes, sizeof bytes, wide_amendments, sizeof wide_amendments, GUESTS))
EXPORT(cs_run, CsRun, (CsDispatcher d, uint32_t ticks), (states, 1000000))

#define ROWS uint32_t n, const uint32_t (*r)[54]

EXPORT(cs_guest_verdict_in, CsVerdict, (ROWS, uint32_t id), (plan.count, CS_ROWS(&plan), GUESTS))
EXPORT(cs_task_verdict_in, CsVerdict, (ROWS, uint32_t id, uint32_t task), (plan.count, CS_ROWS(&plan), GUESTS, TASKS))
EXPORT(cs_accept_in, CsVerdict, (ROWS), (plan.count, CS_ROWS(&plan)))
EXPORT(cs_smallest_capacity_in, CsVerdict, (ROWS, uint32_t id), (wide.count, CS_ROWS(&wide), GUESTS))
EXPORT(cs_order_in, CsRefusal, (uint32_t n, uint32_t (*r)[54], uint32_t id),
       (sorted.count, (uint32_t(*)[54])(void *)sorted.guests, GUESTS))

#define LENT ROWS, uint32_t *l, uint32_t *p, uint32_t *t, uint32_t *w, uint32_t *a, uint64_t *u
#define READ ROWS, const uint32_t *l, const uint32_t *p, uint32_t *t, uint32_t *w, uint32_t *a
#define STATE \
    placed.plan.count, CS_ROWS(&placed.plan), placed.left, placed.position, placed.rest, placed.wait, placed.age

EXPORT(cs_fresh_in, CsRefusal, (LENT), (STATE, placed.usage))
EXPORT(cs_release_in, uint32_t, (READ, uint32_t id, uint32_t task), (STATE, GUESTS, TASKS))
EXPORT(cs_sheet_in, uint32_t, (READ, const uint64_t *q, size_t m, uint32_t *s, size_t room),
       (STATE, pairs, CS_MOST_PAIRS, answers, CS_MOST_PAIRS))
EXPORT(cs_tick_in, CsTickIn, (LENT), (STATE, placed.usage))
EXPORT(cs_run_in, CsRunIn, (LENT, uint32_t ticks), (STATE, placed.usage, 1000000))

EXPORT(cs_write_log, CsRefusal, (CsLogEntries j, uint8_t *b, size_t n), (jobs, buffer, sizeof buffer))
EXPORT(cs_statement, CsStated, (CsStatement s, const uint8_t *p, size_t n, const uint8_t *l, size_t m),
       (running, bytes, sizeof bytes, finished, sizeof finished))
EXPORT(cs_salvage, CsSalvaged, (const uint8_t *f, size_t n, uint8_t *o, size_t m),
       (amendments, sizeof amendments, kept, sizeof kept))
EXPORT(cs_convert, CsRefusal, (const uint8_t *p, size_t n, uint8_t *o, size_t m),
       (old, sizeof old, converted, sizeof converted))

static const struct {
    const char *name;
    void (*call)(int probe);
    size_t arguments; /* on the stack: structs of more than 16 bytes by value */
    size_t aim;       /* what it is to take together at most, or 0 for none */
} exports[] = {
    {"cs_read", call_cs_read, 0, 0},
    {"cs_check", call_cs_check, sizeof(CsPlan), 0},
    {"cs_write", call_cs_write, sizeof(CsGuest), 0},
    {"cs_find", call_cs_find, 0, 0},
    {"cs_guest_verdict", call_cs_guest_verdict, sizeof(CsPlan), 0},
    {"cs_task_verdict", call_cs_task_verdict, sizeof(CsPlan), 0},
    {"cs_accept", call_cs_accept, sizeof(CsPlan), 0},
    {"cs_smallest_capacity", call_cs_smallest_capacity, sizeof(CsPlan), 0},
    {"cs_order", call_cs_order, sizeof(CsPlan), 0},
    {"cs_least_capacities", call_cs_least_capacities, sizeof(CsPlan), 0},
    {"cs_amended_find", call_cs_amended_find, 0, 0},
    {"cs_amended_guest_verdict", call_cs_amended_guest_verdict, 0, 0},
    {"cs_amended_task_verdict", call_cs_amended_task_verdict, 0, 0},
    {"cs_amended_accept", call_cs_amended_accept, 0, 0},
    {"cs_amended_smallest_capacity", call_cs_amended_smallest_capacity, 0, 0},
    {"cs_fresh", call_cs_fresh, sizeof(CsPlan), 0},
    {"cs_release", call_cs_release, sizeof(CsDispatcher), 0},
    {"cs_sheet", call_cs_sheet, sizeof(CsDispatcher), 0},
    {"cs_tick", call_cs_tick, sizeof(CsDispatcher), 0},
    {"cs_run", call_cs_run, sizeof(CsDispatcher), 0},
    /* Of the numbers and pointers that these are handed six go in registers, and so does the place of a result. */
    {"cs_guest_verdict_in", call_cs_guest_verdict_in, 0, 4096},
    {"cs_task_verdict_in", call_cs_task_verdict_in, 0, 4096},
    {"cs_accept_in", call_cs_accept_in, 0, 4096},
    {"cs_smallest_capacity_in", call_cs_smallest_capacity_in, 0, 4096},
    {"cs_order_in", call_cs_order_in, 0, 4096},
    {"cs_release_in", call_cs_release_in, 3 * sizeof(size_t), 2048},
    {"cs_sheet_in", call_cs_sheet_in, 5 * sizeof(size_t), 4096},
    {"cs_tick_in", call_cs_tick_in, 3 * sizeof(size_t), 2048},
    {"cs_run_in", call_cs_run_in, 4 * sizeof(size_t), 2048},
    {"cs_fresh_in", call_cs_fresh_in, 2 * sizeof(size_t), 4096},
    {"cs_write_log", call_cs_write_log, sizeof(CsLogEntries), 0},
    {"cs_statement", call_cs_statement, sizeof(CsStatement), 0},
    {"cs_salvage", call_cs_salvage, 0, 0},
    {"cs_convert", call_cs_convert, 0, 0},
};

static void *on_thread(void *call) {
    (*(void (**)(int))call)(at_call == NULL);
    return NULL;
}

/* One call on a freshly painted stack. */
static void run(void (*call)(int probe)) {
    pthread_attr_t attributes;
    pthread_t thread;
    memset(stack, PAINT, sizeof stack);
    if (pthread_attr_init(&attributes) != 0 || pthread_attr_setstack(&attributes, stack, sizeof stack) != 0 ||
        pthread_create(&thread, &attributes, on_thread, &call) != 0 || pthread_join(thread, NULL) != 0) {
        fail("no thread with a stack of its own");
    }
    pthread_attr_destroy(&attributes);
}

/* The bytes that a call takes below its arguments. */
static size_t below(void (*call)(int probe)) {
    at_call = NULL;
    run(call);
    uint8_t *caller = at_caller;
    run(call);
    if (caller != at_caller) {
        fail("the probe was called from another place");
    }
    size_t untouched = 0;
    while (untouched < sizeof stack && stack[untouched] == PAINT) {
        untouched++;
    }
    return (size_t)(at_call - (stack + untouched));
}

int main(int count, char **words) {
    int held = count > 1 && strcmp(words[1], "--hold") == 0;
    size_t limit = count > 1 && !held ? strtoull(words[1], NULL, 10) : SIZE_MAX;
    int failed = 0;
    make_inputs();
    printf("%-28s %10s %10s %10s\n", "export", "arguments", "below", "together");
    for (size_t at = 0; at < sizeof exports / sizeof exports[0]; at++) {
        size_t taken = below(exports[at].call);
        size_t together = exports[at].arguments + taken;
        size_t most = held && exports[at].aim > 0 ? exports[at].aim : limit;
        printf("%-28s %10zu %10zu %10zu%s\n", exports[at].name, exports[at].arguments, taken, together,
               together > most ? "  too much" : "");
        failed |= together > most;
    }
    return failed;
}
