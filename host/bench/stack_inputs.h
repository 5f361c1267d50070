/* What stack.c calls the exports with: a full plan, 8 guests of 16 tasks, every second task bound, and what is made of
 * it. What is converted is that plan with every guest Deferrable. */
#ifndef STACK_INPUTS_H
#define STACK_INPUTS_H

#include "../c/coreshare.h"

#include <stdio.h>
#include <stdlib.h>
#include <string.h>

enum { GUESTS = 8, TASKS = 16 };

static uint8_t bytes[GUESTS * CS_BLOCK];
static uint8_t buffer[CS_BLOCK];
static CsPlan plan;         /* full, all guests fitted, all tasks met */
static CsPlan wide;         /* the last guest's period is the longest, so that the search for its capacity is deepest */
static CsPlan unordered;    /* the last guest has unbound tasks, every second one with a late deadline */
static CsPlan sorted;       /* the same, for the order in place, which sorts it */
static CsDispatcher states; /* of the full plan, with a job of every task released */
static CsDispatcher placed; /* the same, for the calls in place */
static uint64_t pairs[CS_MOST_PAIRS]; /* each task of the full plan, and once more */
static uint32_t answers[CS_MOST_PAIRS];
static uint8_t amendments[GUESTS * CS_BLOCK];      /* each guest of the full plan, the last one first */
static uint8_t wide_amendments[GUESTS * CS_BLOCK]; /* the same of the wide plan */
static CsLogEntries jobs;                          /* as many as a log block holds, of all guests */
static uint8_t finished[GUESTS * CS_BLOCK];        /* a log of such blocks */
static CsStatement running;                        /* the statement of that log */
static uint8_t kept[GUESTS * CS_BLOCK];            /* what is salvaged of the amendments, none of them at its place */
static uint8_t old[GUESTS * CS_BLOCK];             /* the full plan with every guest Deferrable */
static uint8_t converted[GUESTS * CS_BLOCK];       /* what that is converted to */

static void fail(const char *why) {
    fprintf(stderr, "stack: %s\n", why);
    exit(2);
}

/* Gives a guest this period, and binds every second of its tasks, the last one included. */
static void bind_tasks(CsGuest *guest, uint32_t period) {
    guest->period = period;
    for (uint32_t t = 1; t < TASKS; t += 2) {
        guest->marks |= CS_MARK(t + 1);
        guest->every[t] = guest->deadline[t] = 1000000 - 1000000 % period;
    }
}

/* Guests whose capacities leave room for all, with tasks that need all of their recurrences' turns. */
static void make_plan(void) {
    plan.count = GUESTS;
    for (uint32_t g = 0; g < GUESTS; g++) {
        CsGuest *guest = &plan.guests[g];
        *guest = (CsGuest){.id = g + 1, .capacity = 500, .tasks = TASKS, .charge = 1};
        for (uint32_t t = 0; t < TASKS; t++) {
            guest->run[t] = 20 + t;
            guest->every[t] = guest->deadline[t] = 900000 + 6250 * t;
        }
        bind_tasks(guest, 10000 + 997 * g);
        if (cs_write(*guest, g, bytes + CS_BLOCK * g, CS_BLOCK).number != 0) {
            fail("a block of the full plan is refused");
        }
    }
    wide = plan;
    bind_tasks(&wide.guests[GUESTS - 1], 1000000);
    if (cs_accept(plan).verdict != 1 || cs_smallest_capacity(wide, GUESTS).verdict != 1 ||
        cs_least_capacities(wide).refusal.number != 0) {
        fail("the full plan is not accepted");
    }
}

static void make_unordered(void) {
    unordered = plan;
    unordered.guests[GUESTS - 1].marks = 0;
    if (cs_order(unordered, GUESTS).refusal.number != 0) {
        fail("the full plan has no order");
    }
    sorted = unordered;
}

/* A sheet with each guest of a full plan, the last one first. */
static void write_amendments(const CsPlan *of, uint8_t *sheet) {
    for (uint32_t g = 0; g < GUESTS; g++) {
        if (cs_write(of->guests[g], g, sheet + CS_BLOCK * (GUESTS - 1 - g), CS_BLOCK).number != 0) {
            fail("a block of an amendment sheet is refused");
        }
    }
}

static void make_amendments(void) {
    write_amendments(&plan, amendments);
    write_amendments(&wide, wide_amendments);
    CsVerdict whole = cs_amended_accept(bytes, sizeof bytes, amendments, sizeof amendments);
    CsVerdict least =
        cs_amended_smallest_capacity(bytes, sizeof bytes, wide_amendments, sizeof wide_amendments, GUESTS);
    if (whole.verdict != 1 || least.verdict != 1) {
        fail("the amended full plan is not accepted");
    }
}

static void make_state(void) {
    states = cs_fresh(plan).dispatcher;
    for (uint32_t g = 1; g <= GUESTS; g++) {
        for (uint32_t t = 1; t < TASKS || (g < GUESTS && t == TASKS); t++) {
            CsReleased released = cs_release(states, g, t);
            if (released.refusal.number != 0) {
                fail("a release of the full plan is refused");
            }
            states = released.dispatcher;
        }
    }
    placed = states;
}

static void make_sheet(void) {
    for (uint32_t i = 0; i < CS_MOST_PAIRS; i++) {
        pairs[i] = CS_PAIR(i / TASKS % GUESTS + 1, i % TASKS + 1);
    }
}

static void make_log(void) {
    jobs.count = CS_MOST_JOBS;
    for (uint32_t i = 0; i < CS_MOST_JOBS; i++) {
        jobs.entries[i] = (CsLogEntry){.guest = i % GUESTS + 1, .task = i % TASKS + 1, .age = 900000 + i};
    }
    for (size_t at = 0; at < sizeof finished; at += CS_BLOCK) {
        if (cs_write_log(jobs, finished + at, CS_BLOCK).number != 0) {
            fail("a block of the log is refused");
        }
    }
    CsStated stated = cs_statement(running, bytes, sizeof bytes, finished, sizeof finished);
    if (stated.refusal.number != 0 || stated.passed != 0) {
        fail("the log is not stated");
    }
    running = stated.statement;
}

/* The full plan's blocks are of kind 2 already: their checks take back what a 1 in byte 22 adds to the sum. */
static void make_old(void) {
    memcpy(old, bytes, sizeof old);
    for (uint8_t *block = old; block < old + sizeof old; block += CS_BLOCK) {
        uint32_t check;
        memcpy(&check, block + CS_BLOCK - sizeof check, sizeof check);
        check -= 1u << 16;
        memcpy(block + CS_BLOCK - sizeof check, &check, sizeof check);
        block[22] = 1;
    }
    if (cs_convert(old, sizeof old, converted, sizeof converted).number != 0 ||
        memcmp(converted, bytes, sizeof bytes) != 0) {
        fail("the old plan is not converted to the full one");
    }
}

static void make_inputs(void) {
    make_plan();
    make_unordered();
    make_amendments();
    make_state();
    make_sheet();
    make_log();
    make_old();
}

#endif
