/* The calls in both forms, on plans and states in and out of their ranges: outcome, plan and state must be the same,
 * and a refused call must change nothing. Built with the compiler's sanitizers and run under memcheck by `memory`. */
#include "coreshare.h"

#include <stdio.h>
#include <stdlib.h>
#include <string.h>

static uint64_t seed = 1;

static uint32_t random_below(uint32_t n) {
    seed = seed * 6364136223846793005ULL + 1442695040888963407ULL;
    return (uint32_t)(seed >> 33) % n;
}

/* States are compared field by field: the padding means nothing. */
static int same_state(const CsDispatcher *a, const CsDispatcher *b) {
    return memcmp(&a->plan, &b->plan, sizeof a->plan) == 0 && memcmp(a->usage, b->usage, sizeof a->usage) == 0 &&
           memcmp(a->left, b->left, sizeof a->left) == 0 && memcmp(a->position, b->position, sizeof a->position) == 0 &&
           memcmp(a->rest, b->rest, sizeof a->rest) == 0 && memcmp(a->wait, b->wait, sizeof a->wait) == 0 &&
           memcmp(a->age, b->age, sizeof a->age) == 0;
}

static void hold(int same, const char *what) {
    if (!same) {
        printf("%s differs in place\n", what);
        exit(1);
    }
}

/* Most plans are of light guests, so that some are accepted. */
static CsGuest random_guest(uint32_t id, int light) {
    CsGuest guest = {.id = id, .period = 2 + random_below(20), .tasks = 1 + random_below(light ? 3 : 16)};
    guest.capacity = 1 + random_below(light ? 1 + guest.period / 4 : guest.period);
    guest.charge = (uint16_t)random_below(3);
    for (uint32_t t = 0; t < guest.tasks; t++) {
        guest.run[t] = 1 + random_below(4);
        guest.every[t] = guest.period * (1 + random_below(9));
        guest.deadline[t] = 1 + random_below(guest.every[t]);
        guest.marks |= random_below(3) == 0 ? CS_MARK(t + 1) : 0;
    }
    return guest;
}

static CsPlan random_plan(void) {
    CsPlan plan = {.count = 1 + random_below(8)};
    int light = random_below(3) > 0;
    for (uint32_t g = 0; g < plan.count; g++) {
        plan.guests[g] = random_guest(g + 1, light);
    }
    return plan;
}

/* One word of a plan or a state anything at all. */
static void damage(void *of, uint32_t bytes) {
    uint32_t word = random_below(bytes / 4), value = random_below(2) == 0 ? UINT32_MAX : random_below(1000);
    memcpy((uint8_t *)of + 4 * word, &value, 4);
}

static int same_plan(const CsPlan *a, const CsPlan *b) {
    return memcmp(a, b, sizeof *a) == 0;
}

/* The id of a guest, or one that none has. */
static uint32_t random_id(const CsPlan *plan) {
    return random_below(plan->count % 9 + 2);
}

/* A verdict in place leaves the plan as it is. */
static void hold_verdict(CsVerdict by_value, CsVerdict in_place, const CsPlan *before, const CsPlan *plan,
                         const char *what) {
    hold(memcmp(&by_value, &in_place, sizeof by_value) == 0 && same_plan(before, plan), what);
}

static void both_guest_verdict(CsPlan *plan) {
    CsPlan before = *plan;
    uint32_t id = random_id(plan);
    hold_verdict(cs_guest_verdict(before, id), cs_guest_verdict_at(plan, id), &before, plan, "a guest's verdict");
}

static void both_task_verdict(CsPlan *plan) {
    CsPlan before = *plan;
    uint32_t id = random_id(plan), task = random_below(18);
    hold_verdict(cs_task_verdict(before, id, task), cs_task_verdict_at(plan, id, task), &before, plan,
                 "a task's verdict");
}

static void both_accept(CsPlan *plan) {
    CsPlan before = *plan;
    hold_verdict(cs_accept(before), cs_accept_at(plan), &before, plan, "an acceptance");
}

static void both_capacity(CsPlan *plan) {
    CsPlan before = *plan;
    uint32_t id = random_id(plan);
    hold_verdict(cs_smallest_capacity(before, id), cs_smallest_capacity_at(plan, id), &before, plan, "a capacity");
}

static void both_order(CsPlan *plan) {
    CsPlan before = *plan;
    uint32_t id = random_id(plan);
    CsOrdered ordered = cs_order(before, id);
    CsRefusal refusal = cs_order_at(plan, id);
    hold(refusal.number == ordered.refusal.number && refusal.place == ordered.refusal.place, "an order's refusal");
    hold(same_plan(plan, refusal.number == 0 ? &ordered.plan : &before), "an order");
}

static void both_fresh(CsDispatcher *state) {
    CsDispatcher before = *state;
    CsStart start = cs_fresh(state->plan);
    CsRefusal refusal = cs_fresh_at(state);
    hold(refusal.number == start.refusal.number && refusal.place == start.refusal.place, "a start's refusal");
    hold(same_state(state, refusal.number == 0 ? &start.dispatcher : &before), "a start");
}

static void both_release(CsDispatcher *state) {
    uint32_t id = random_below(9), task = random_below(18);
    CsReleased released = cs_release(*state, id, task);
    hold(cs_release_at(state, id, task) == released.refusal.number, "a release's refusal");
    hold(same_state(state, &released.dispatcher), "a release");
}

static void both_sheet(CsDispatcher *state) {
    /* As long as they are and no longer, so that a word past them is found. */
    uint32_t count = random_below(260), room = random_below(260);
    uint64_t *pairs = malloc(count * sizeof *pairs + 8);
    uint32_t *one = malloc(room * sizeof *one + 4), *two = malloc(room * sizeof *two + 4);
    for (uint32_t i = 0; i < count; i++) {
        pairs[i] = CS_PAIR(random_below(9), random_below(18));
    }
    memset(one, 0x5A, room * sizeof *one);
    memset(two, 0x5A, room * sizeof *two);
    CsReleased released = cs_sheet(*state, pairs, count, one, room);
    hold(cs_sheet_at(state, pairs, count, two, room) == released.refusal.number, "a sheet's refusal");
    hold(memcmp(one, two, room * sizeof *one) == 0, "a sheet's answers");
    hold(same_state(state, &released.dispatcher), "a sheet");
    free(pairs);
    free(one);
    free(two);
}

static void both_tick(CsDispatcher *state) {
    CsTicked ticked = cs_tick(*state);
    CsTickIn tick = cs_tick_at(state);
    hold(tick.number == ticked.refusal.number, "a tick's refusal");
    hold(memcmp(&tick.answer, &ticked.answer, sizeof tick.answer) == 0, "a tick's answer");
    hold(same_state(state, &ticked.dispatcher), "a tick");
}

static void both_run(CsDispatcher *state) {
    uint32_t ticks = random_below(20) == 0 ? 1000001 : random_below(50);
    CsRun by_value = cs_run(*state, ticks);
    CsRunIn run = cs_run_at(state, ticks);
    hold(run.number == by_value.refusal.number && run.done == by_value.done, "a run's refusal");
    hold(memcmp(&run.answer, &by_value.answer, sizeof run.answer) == 0, "a run's answer");
    hold(same_state(state, &by_value.dispatcher), "a run");
}

/* A plan judged and its tasks ordered, now and then damaged. Half of its guests lose their marks, since a guest with
 * one has no order. */
static void judge(const CsPlan *plan) {
    static void (*const calls[])(CsPlan *) = {both_guest_verdict, both_task_verdict, both_accept, both_capacity,
                                              both_order};
    /* On the heap, as long as it is and no longer, so that a word past it is found. */
    CsPlan *lent = malloc(sizeof *lent);
    for (uint32_t c = 0; c < 30; c++) {
        *lent = *plan;
        for (uint32_t g = 0; g < 8; g++) {
            lent->guests[g].marks = random_below(2) == 0 ? 0 : lent->guests[g].marks;
        }
        if (random_below(3) == 0) {
            damage(lent, sizeof *lent);
        }
        calls[random_below(5)](lent);
    }
    free(lent);
}

/* A history of a plan's state, with damaged states aside. */
static void dispatch(const CsPlan *plan) {
    static void (*const calls[])(CsDispatcher *) = {both_fresh, both_release, both_sheet, both_tick, both_run};
    CsDispatcher state = {.plan = *plan};
    both_fresh(&state);
    for (uint32_t c = 0; c < 60; c++) {
        if (random_below(12) == 0) {
            CsDispatcher damaged = state;
            damage(&damaged, sizeof damaged);
            calls[random_below(5)](&damaged);
        }
        calls[1 + random_below(4)](&state);
    }
}

int main(int count, char **words) {
    uint32_t plans = count > 1 ? (uint32_t)strtoul(words[1], NULL, 10) : 2000;
    for (uint32_t p = 0; p < plans; p++) {
        CsPlan plan = random_plan();
        judge(&plan);
        dispatch(&plan);
    }
    printf("%u plans, both forms the same\n", (unsigned)plans);
    return 0;
}
