/* Plan A of document 01 from C: its blocks written, read and judged, an amendment to it tried, its tasks put in order,
 * its least capacities chosen, a task bound, an old card of it converted, and its dispatcher run until a job finishes;
 * then where the ticks went, a sheet of releases, a statement of finished jobs, and last what is left of the plan when
 * its first block is damaged.
 * From this folder: cc -O2 example.c ../../target/staticlib/libcoreshare.a -o example */
#include "coreshare.h"

#include <inttypes.h>
#include <stdio.h>
#include <string.h>

/* A record with one task; more are added by hand. */
static CsGuest guest(uint32_t id, uint32_t capacity, uint32_t period, uint32_t run, uint32_t every) {
    CsGuest made = {.id = id, .capacity = capacity, .period = period, .tasks = 1};
    made.run[0] = run;
    made.every[0] = every;
    made.deadline[0] = every;
    return made;
}

/* Prints a refusal, and says whether there was one. */
static int refused(const char *what, CsRefusal refusal) {
    if (refusal.number == 0) {
        return 0;
    }
    printf("%s refused %u at %u\n", what, refusal.number, refusal.place);
    return 1;
}

/* Guest 9 of plan A, with this capacity. */
static CsGuest guest_9(uint32_t capacity) {
    CsGuest made = guest(9, capacity, 20, 10, 50);
    made.tasks = 2;
    made.run[1] = 8;
    made.every[1] = 100;
    made.deadline[1] = 100;
    return made;
}

static int write_plan_a(uint8_t bytes[2 * CS_BLOCK]) {
    return refused("write", cs_write(guest(7, 2, 5, 1, 20), 0, bytes, CS_BLOCK)) ||
           refused("write", cs_write(guest_9(8), 1, bytes + CS_BLOCK, CS_BLOCK));
}

static void print_guest(const CsPlan *plan, const CsGuest *guest) {
    CsVerdict of_guest = cs_guest_verdict(*plan, guest->id);
    if (of_guest.verdict == 1) {
        printf("guest %u fitted %u\n", guest->id, of_guest.ticks);
    } else {
        printf("guest %u unfit\n", guest->id);
    }
    for (uint32_t task = 1; task <= guest->tasks; task++) {
        CsVerdict of_task = cs_task_verdict(*plan, guest->id, task);
        if (of_task.verdict == 1) {
            printf("task %u met %u\n", task, of_task.ticks);
        } else if (of_task.verdict == 2 && of_task.ticks > 0) {
            printf("task %u unmet %u\n", task, of_task.ticks);
        } else {
            printf("task %u %s\n", task, of_task.verdict == 2 ? "unmet" : "unjudged");
        }
    }
}

static void print_verdicts(const CsPlan *plan) {
    for (uint32_t at = 0; at < plan->count; at++) {
        print_guest(plan, &plan->guests[at]);
    }
    printf("plan %s\n", cs_accept(*plan).verdict == 1 ? "accepted" : "not accepted");
    printf("guest 9 needs a capacity of %u\n", cs_smallest_capacity(*plan, 9).ticks);
}

/* What plan A would be with capacity 7 for guest 9; its own bytes stay as they are. */
static int try_an_amendment(const uint8_t *plan, size_t length) {
    uint8_t sheet[CS_BLOCK];
    if (refused("write", cs_write(guest_9(7), 1, sheet, sizeof sheet))) {
        return 1;
    }
    for (uint32_t id = 7; id <= 9; id++) {
        CsLocated block = cs_amended_find(plan, length, sheet, sizeof sheet, id);
        const char *whose = block.sheet ? "sheet" : "plan";
        if (block.number == 0) {
            printf("guest %u stands at byte %u of the %s\n", id, CS_BLOCK * block.place, whose);
        } else {
            printf("guest %u is refused as %u by the %s\n", id, block.number, whose);
        }
    }
    printf("with capacity 7 guest 9 is fitted %u and its tasks are met %u and %u\n",
           cs_amended_guest_verdict(plan, length, sheet, sizeof sheet, 9).ticks,
           cs_amended_task_verdict(plan, length, sheet, sizeof sheet, 9, 1).ticks,
           cs_amended_task_verdict(plan, length, sheet, sizeof sheet, 9, 2).ticks);
    CsVerdict whole = cs_amended_accept(plan, length, sheet, sizeof sheet);
    CsVerdict least = cs_amended_smallest_capacity(plan, length, sheet, sizeof sheet, 9);
    printf("so the plan is %s, and needs %u\n", whole.verdict == 1 ? "accepted" : "not accepted", least.ticks);
    return 0;
}

/* Guest 9's tasks come the other way about: in that order one is unmet, and the order that is proposed is plan A's. */
static int order_tasks(const CsPlan *plan) {
    CsPlan exchanged = *plan;
    CsGuest *own = &exchanged.guests[1];
    *own = guest(9, 8, 20, 8, 100);
    own->tasks = 2;
    own->run[1] = 10;
    own->every[1] = own->deadline[1] = 50;
    printf("exchanged, task 1 of guest 9 is met %u, and task 2 is %s\n", cs_task_verdict(exchanged, 9, 1).ticks,
           cs_task_verdict(exchanged, 9, 2).verdict == 1 ? "met" : "unmet");
    CsOrdered ordered = cs_order(exchanged, 9);
    if (refused("order", ordered.refusal)) {
        return 1;
    }
    printf("in the order proposed they are met %u and %u, which is %s\n", cs_task_verdict(ordered.plan, 9, 1).ticks,
           cs_task_verdict(ordered.plan, 9, 2).ticks,
           memcmp(&ordered.plan, plan, sizeof *plan) == 0 ? "plan A" : "another plan");
    return 0;
}

/* Guest 7 needs less than it has, and so guest 9 needs less than where guest 7 keeps what it has. */
static int choose_capacities(const CsPlan *plan) {
    CsChosen chosen = cs_least_capacities(*plan);
    if (refused("choice", chosen.refusal)) {
        return 1;
    }
    printf("the least capacities are %u and %u, and the plan is %s with them\n", chosen.plan.guests[0].capacity,
           chosen.plan.guests[1].capacity, cs_accept(chosen.plan).verdict == 1 ? "accepted" : "not accepted");
    return 0;
}

/* Task 1 of guest 9 with a period of 60, three times its guest's, unbound and bound: bound its response is shorter, and
 * it is released at the start of its guest's period alone. */
static int bind_a_task(CsPlan plan) {
    CsGuest *bound = &plan.guests[1];
    bound->every[0] = bound->deadline[0] = 60;
    uint32_t response = cs_task_verdict(plan, 9, 1).ticks;
    bound->marks = CS_MARK(1);
    printf("task 1 has %u, and bound %u\n", response, cs_task_verdict(plan, 9, 1).ticks);
    CsStart start = cs_fresh(plan);
    if (refused("start", start.refusal)) {
        return 1;
    }
    CsTicked ticked = cs_tick(start.dispatcher);
    printf("bound, it is answered %u at position 0 and %u at position 1\n",
           cs_release(start.dispatcher, 9, 1).refusal.number, cs_release(ticked.dispatcher, 9, 1).refusal.number);
    return 0;
}

/* A plan without marks as an old card has it, its guests Deferrable: each block is of kind 2 with a 1 in byte 22, and
 * its check takes back what they add to the sum. */
static void make_old_card(const uint8_t *plan, size_t length, uint8_t *card) {
    memcpy(card, plan, length);
    for (uint8_t *block = card; block < card + length; block += CS_BLOCK) {
        uint32_t check;
        memcpy(&check, block + CS_BLOCK - sizeof check, sizeof check);
        check -= 1 + (1u << 16);
        memcpy(block + CS_BLOCK - sizeof check, &check, sizeof check);
        block[0] = 2;
        block[22] = 1;
    }
}

/* Where both guests are Deferrable, guest 9 and its tasks have longer responses, and there is no start; converted, the
 * card is plan A. */
static int convert_an_old_card(const uint8_t *plan, size_t length) {
    uint8_t card[2 * CS_BLOCK], converted[2 * CS_BLOCK];
    make_old_card(plan, length, card);
    CsPlan old = cs_read(card, length).plan;
    print_guest(&old, &old.guests[1]);
    printf("the old card's start is refused as %u\n", cs_fresh(old).refusal.number);
    if (refused("convert", cs_convert(card, length, converted, sizeof converted))) {
        return 1;
    }
    CsPlan now = cs_read(converted, length).plan;
    print_guest(&now, &now.guests[1]);
    printf("converted it is %s\n", memcmp(converted, plan, length) == 0 ? "plan A" : "another plan");
    return 0;
}

static void print_usage(const CsDispatcher *dispatcher) {
    for (uint32_t at = 0; at < dispatcher->plan.count; at++) {
        printf("guest %u had %" PRIu64 " ticks and idled %" PRIu64 " of them away\n", dispatcher->plan.guests[at].id,
               dispatcher->usage[at], dispatcher->usage[CS_IDLED_AT(at)]);
    }
    printf("nobody had %" PRIu64 "\n", dispatcher->usage[CS_NOBODYS]);
}

/* Task 2 of guest 9 is due, but not twice; task 1 was released too lately; there is no guest 8. */
static int release_a_sheet(const CsDispatcher *dispatcher) {
    uint64_t pairs[] = {CS_PAIR(9, 2), CS_PAIR(9, 2), CS_PAIR(9, 1), CS_PAIR(8, 1)};
    uint32_t answers[4];
    CsReleased released = cs_sheet(*dispatcher, pairs, 4, answers, 4);
    if (refused("sheet", released.refusal)) {
        return 1;
    }
    printf("sheet answered %u %u %u %u\n", answers[0], answers[1], answers[2], answers[3]);
    return 0;
}

static int run_until_finished(const CsPlan *plan) {
    CsStart start = cs_fresh(*plan);
    if (refused("start", start.refusal)) {
        return 1;
    }
    CsReleased released = cs_release(start.dispatcher, 9, 1);
    if (refused("release", released.refusal)) {
        return 1;
    }
    CsRun run = cs_run(released.dispatcher, 1000);
    if (refused("run", run.refusal) || run.answer.kind != CS_FINISHED) {
        return 1;
    }
    printf("after %u ticks guest %u finished task %u: age %u, margin %d\n", run.done, run.answer.guest, run.answer.task,
           run.answer.age, run.answer.margin);
    print_usage(&run.dispatcher);
    return release_a_sheet(&run.dispatcher);
}

/* Two jobs of guest 9's first task logged and stated, the second one late; the log's other block is empty and so passed
 * over. The task's line is the first of the guest at place 1. */
static int state_finished_jobs(const uint8_t *plan, size_t length) {
    CsLogEntry on_time = {.guest = 9, .task = 1, .age = 24}, late = {.guest = 9, .task = 1, .age = 60};
    CsLogEntries jobs = {.count = 2, .entries = {on_time, late}};
    CsStatement statement = {.blocks = 0};
    uint8_t log[2 * CS_BLOCK] = {0};
    if (refused("log", cs_write_log(jobs, log, sizeof log))) {
        return 1;
    }
    CsStated stated = cs_statement(statement, plan, length, log, sizeof log);
    if (refused("statement", stated.refusal)) {
        return 1;
    }
    statement = stated.statement;
    printf("%" PRIu64 " block counted: %u jobs, longest age %u, %u late, margins %" PRId64 "\n", statement.blocks,
           statement.jobs[16], statement.longest[16], statement.late[16], statement.margins[16]);
    printf("%" PRIu64 " passed over, the first at %" PRIu64 " by %u\n", stated.passed, stated.position, stated.number);
    return 0;
}

/* The first block's check is damaged, so its guest 7 is lost; guest 9 comes back at place 0. */
static int salvage_the_rest(const uint8_t *plan, size_t length) {
    uint8_t file[2 * CS_BLOCK], rest[2 * CS_BLOCK];
    memcpy(file, plan, length);
    file[CS_BLOCK - 1] ^= 1;
    CsSalvaged salvaged = cs_salvage(file, length, rest, sizeof rest);
    if (refused("salvage", salvaged.refusal)) {
        return 1;
    }
    for (uint32_t at = 0; at < salvaged.blocks; at++) {
        CsFate fate = salvaged.fates[at];
        if (fate.number == 0) {
            printf("block %u is kept at place %u\n", at, fate.place);
        } else {
            printf("block %u is dropped by %u\n", at, fate.number);
        }
    }
    CsRead read = cs_read(rest, salvaged.written);
    if (refused("read", read.refusal)) {
        return 1;
    }
    printf("%u bytes are salvaged, the first guest is %u\n", salvaged.written, read.plan.guests[0].id);
    return 0;
}

int main(void) {
    uint8_t bytes[2 * CS_BLOCK];
    if (write_plan_a(bytes)) {
        return 1;
    }
    CsRefusal found = cs_find(bytes, sizeof bytes, 9);
    if (refused("find", found)) {
        return 1;
    }
    printf("guest 9 stands at byte %u\n", CS_BLOCK * found.place);
    CsRead read = cs_read(bytes, sizeof bytes);
    if (refused("read", read.refusal) || refused("check", cs_check(read.plan))) {
        return 1;
    }
    print_verdicts(&read.plan);
    if (try_an_amendment(bytes, sizeof bytes) || order_tasks(&read.plan) || choose_capacities(&read.plan) ||
        bind_a_task(read.plan) || convert_an_old_card(bytes, sizeof bytes)) {
        return 1;
    }
    return run_until_finished(&read.plan) || state_finished_jobs(bytes, sizeof bytes) ||
           salvage_the_rest(bytes, sizeof bytes);
}
