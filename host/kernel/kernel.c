/* A small hypervisor on a bare core: the timer's interrupt calls the dispatcher in place, on a small stack, and gives
 * the core to the task that the answer names. The tasks are loops that really use it. Each plan is pressed as hard as
 * refusals allow; each finished job is told with its age and margin, and at the end each task's longest age beside what
 * was quoted for it. With PLANTED defined every seventh tick goes to another guest than the answer's: a job is then found
 * to finish short of its run. */
#include "../c/coreshare.h"
#include "machine.h"

#define TICKS 3000
#define GUESTS 8
#define TASKS 16
#define SLOTS (GUESTS * TASKS)
#define NONE SLOTS

static CsDispatcher dispatcher;
static uint32_t quoted[SLOTS], longest[SLOTS];
static uint32_t had[SLOTS];           /* the ticks that a task's loop had since its last release */
static volatile uint64_t turns[SLOTS + 1], seen[SLOTS + 1];
static Frame threads[SLOTS + 1], waiting; /* each task's, nobody's, and the one that waits for the end */
static _Alignas(16) uint8_t stacks[SLOTS + 1][1024];
static uint32_t running = NONE, ticks, finishing = NONE;
static CsAnswer finished;
static int mistakes;
static volatile int over = 1;

/* What each task does, and what nobody does with the core: it turns, and counts its turns. */
static void work(uint64_t slot) {
    for (;;) {
        turns[slot]++;
    }
}

static uint32_t slot_of(uint32_t guest, uint32_t task) {
    for (uint32_t g = 0; g < dispatcher.plan.count; g++) {
        if (dispatcher.plan.guests[g].id == guest) {
            return g * TASKS + task - 1;
        }
    }
    return NONE;
}

/* The tick that has passed: its task's loop must have turned, and a job that finished must have had its run. */
static void tick_passed(void) {
    if (turns[running] == seen[running]) {
        print("nobody turned in a tick of slot %\n", (int64_t)running);
        mistakes++;
    }
    seen[running] = turns[running];
    if (running != NONE) {
        had[running]++;
    }
    if (finishing == NONE) {
        return;
    }
    CsGuest *guest = &dispatcher.plan.guests[finishing / TASKS];
    uint32_t run = guest->run[finishing % TASKS] + 2 * guest->charge;
    print("finished guest % task % age % margin %\n", (int64_t)finished.guest, (int64_t)finished.task,
          (int64_t)finished.age, (int64_t)finished.margin);
    if (had[finishing] != run) {
        print("it had % of % ticks\n", (int64_t)had[finishing], (int64_t)run);
        mistakes++;
    }
    if (finished.age > longest[finishing]) {
        longest[finishing] = finished.age;
    }
    if (finished.age > quoted[finishing]) {
        print("it is late\n");
        mistakes++;
    }
    finishing = NONE;
}

/* Every task is released as soon as it may be. */
static void release_all(void) {
    for (uint32_t g = 0; g < dispatcher.plan.count; g++) {
        CsGuest *guest = &dispatcher.plan.guests[g];
        for (uint32_t t = 0; t < guest->tasks; t++) {
            if (cs_release_at(&dispatcher, guest->id, t + 1) == 0) {
                had[g * TASKS + t] = 0;
            }
        }
    }
}

/* The next tick: who has it, by the dispatcher. */
static uint32_t next_tick(void) {
    CsTickIn tick = cs_tick_at(&dispatcher);
    if (tick.number != 0) {
        print("refused as %\n", (int64_t)tick.number);
        power_off(1);
    }
    if (tick.answer.kind != CS_RAN && tick.answer.kind != CS_FINISHED) {
        return NONE;
    }
    uint32_t slot = slot_of(tick.answer.guest, tick.answer.task);
    if (tick.answer.kind == CS_FINISHED) {
        finishing = slot;
        finished = tick.answer;
    }
#ifdef PLANTED
    if (ticks % 7 == 6) {
        return slot == 0 ? TASKS : 0;
    }
#endif
    return slot;
}

void on_timer(Frame *thread) {
    __asm__ volatile("outb %%al, $0x20" ::"a"(0x20));
    if (over) {
        return;
    }
    if (ticks == 0) {
        waiting = *thread;
    } else {
        threads[running] = *thread;
        tick_passed();
    }
    if (ticks == TICKS) {
        over = 1;
        *thread = waiting;
        return;
    }
    release_all();
    running = next_tick();
    ticks++;
    *thread = threads[running];
}

/* The response that is quoted for each task, before anything runs. */
static void quote(const CsPlan *plan) {
    for (uint32_t g = 0; g < plan->count; g++) {
        for (uint32_t t = 0; t < plan->guests[g].tasks; t++) {
            CsVerdict verdict = cs_task_verdict(*plan, plan->guests[g].id, t + 1);
            if (verdict.number != 0 || verdict.verdict != 1) {
                print("guest % task % is not met\n", (int64_t)plan->guests[g].id, (int64_t)t + 1);
                power_off(1);
            }
            quoted[g * TASKS + t] = verdict.ticks;
            longest[g * TASKS + t] = 0;
        }
    }
}

static void summary(const char *name) {
    print(name);
    print(" after % ticks, % bytes of % of the interrupt's stack used\n", (int64_t)ticks, (int64_t)interrupt_stack_used(),
          (int64_t)INTERRUPT_STACK);
    for (uint32_t g = 0; g < dispatcher.plan.count; g++) {
        for (uint32_t t = 0; t < dispatcher.plan.guests[g].tasks; t++) {
            uint32_t slot = g * TASKS + t;
            print("guest % task % longest % of %\n", (int64_t)dispatcher.plan.guests[g].id, (int64_t)t + 1,
                  (int64_t)longest[slot], (int64_t)quoted[slot]);
        }
    }
}

/* Plays a plan from a fresh start. */
static void play(const char *name, const CsPlan *plan) {
    quote(plan);
    dispatcher.plan = *plan;
    if (cs_fresh_at(&dispatcher).number != 0) {
        print("the start is refused\n");
        power_off(1);
    }
    for (uint64_t slot = 0; slot <= SLOTS; slot++) {
        make_thread(&threads[slot], work, slot, stacks[slot] + sizeof stacks[slot]);
        seen[slot] = turns[slot];
    }
    ticks = 0;
    running = finishing = NONE;
    over = 0;
    while (!over) {
        __asm__ volatile("hlt");
    }
    summary(name);
}

/* A guest with up to two tasks of run, period and deadline. */
static CsGuest guest_of(uint32_t id, uint32_t capacity, uint32_t period, uint32_t tasks, const uint32_t numbers[][3]) {
    CsGuest guest = {.id = id, .capacity = capacity, .period = period, .tasks = tasks};
    for (uint32_t t = 0; t < tasks; t++) {
        guest.run[t] = numbers[t][0];
        guest.every[t] = numbers[t][1];
        guest.deadline[t] = numbers[t][2];
    }
    return guest;
}

void kernel_main(void) {
    static CsPlan plan;
    plan.count = 2;
    plan.guests[0] = guest_of(7, 2, 5, 1, (const uint32_t[][3]){{1, 20, 20}});
    plan.guests[1] = guest_of(9, 8, 20, 2, (const uint32_t[][3]){{10, 50, 50}, {8, 100, 100}});
    start_timer();
    play("plan A", &plan);
    plan.guests[1].marks = CS_MARK(2);
    play("plan A with a bound task", &plan);
    print(mistakes == 0 ? "all was kept\n" : "not all was kept\n");
    power_off(mistakes == 0 ? 0 : 1);
}
