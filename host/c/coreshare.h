/* The core-sharing library's C interface, for x86-64. Link libcoreshare.a, which `./build library` writes.
 *
 * On one core, up to 8 guests share the time, each with up to 16 tasks. Every rule stands in document 01,
 * as the requests P1 to P13 of document 02 change it; that of cs_least_capacities stands where it is declared.
 *
 * - Records and states cross by value, or are lent to a call in place; what is lent, as bytes are, is lent for the call
 *   alone: the library keeps no pointer and no state of its own, so calls from several threads need no lock.
 * - No call asks anything of its input: any value of any field is taken, and what is out of range is
 *   refused by its number. Number 0 is no refusal; the place of a refusal 7 to 15, 17, 18 or 20 to 23, is 0, but that
 *   of 11 from cs_least_capacities is a guest's.
 * - A pointer must be good for its length, for the whole call, and not be NULL even where the length is 0. The library
 *   does not test that, and promises nothing where it does not hold.
 * - A CsGuest is 216 bytes, a CsPlan 1,732, a CsDispatcher 3,472 and a CsStatement 2,568, both aligned to 8. By value
 *   they cross on the stack, there and back; docs/FIGURES.md has the stack that each call takes, as measured.
 * - CsDispatcher has four bytes of padding before usage, CsTicked and CsStated four at their ends. The library neither
 *   reads nor promises them: compare states field by field, not by memcmp, and clear them before their bytes are sent
 *   anywhere. CsStatement has none.
 * - A CsGuest has grown by deferrable, before its arrays: a host is compiled anew, sets the marks, and leaves
 *   deferrable 0.
 * - Like any compiled C, the library may call memcpy, memmove, memset and memcmp, also where there is no C library.
 */
#ifndef CORESHARE_H
#define CORESHARE_H

#include <stddef.h>
#include <stdint.h>

#ifdef __cplusplus
extern "C" {
#endif

/* The bytes of one guest's block, and of one block of a log. */
#define CS_BLOCK 512

/* The mark of a task, by its number from 1 to 16. */
#define CS_MARK(task) ((uint16_t)(1u << ((task) - 1)))

/* One guest's record. Entries and marks past the number of tasks are not looked at.
 *
 * A task with a mark is bound to its guest's period: its own period is a multiple of the guest's, its release is taken
 * only while the guest's position is 0, and its response has no gap of period less capacity in it.
 *
 * A Deferrable guest is one of an old plan. It is still read and judged, guests and tasks below it with its jitter of
 * period less capacity, but no longer written or started: cs_convert makes a Periodic guest of it.
 *
 * A record with a mark among its tasks' is written as a block of kind 2, any other as kind 1. An old block of a
 * Deferrable guest is of kind 2 too, with a 1 in byte 22. */
typedef struct CsGuest {
    uint32_t id;           /* not 0, once in a plan */
    uint32_t capacity;     /* 1 to the period */
    uint32_t period;       /* 1 to 1,000,000 ticks */
    uint32_t tasks;        /* number of tasks, 1 to 16 */
    uint16_t charge;       /* added twice to every task's run: the switch in and the switch out */
    uint16_t marks;        /* which tasks are bound, bit 0 for task 1 and so on; 0 for none */
    uint32_t deferrable;   /* 0 for a Periodic guest, any other number for a Deferrable one, which is read as 1 */
    uint32_t run[16];      /* 1 to 1,000,000 */
    uint32_t every[16];    /* the task's period, 1 to 1,000,000; of a bound task a multiple of the guest's */
    uint32_t deadline[16]; /* 1 to the task's period */
} CsGuest;

/* A plan: guests in priority order, first is highest. Guests past the count are not looked at. */
typedef struct CsPlan {
    uint32_t count; /* 1 to 8 */
    CsGuest guests[8];
} CsPlan;

/* A refusal's number and place; number 0 is no refusal. */
typedef struct CsRefusal {
    uint32_t number;
    uint32_t place;
} CsRefusal;

typedef struct CsRead {
    CsRefusal refusal;
    CsPlan plan; /* zero throughout on a refusal */
} CsRead;

typedef struct CsOrdered {
    CsRefusal refusal;
    CsPlan plan; /* unchanged on a refusal */
} CsOrdered;

typedef struct CsChosen {
    CsRefusal refusal;
    CsPlan plan; /* unchanged on a refusal */
} CsChosen;

/* A verdict with its ticks, both 0 on a refusal. */
typedef struct CsVerdict {
    uint32_t number;
    uint32_t place;
    uint32_t verdict;
    uint32_t ticks;
} CsVerdict;

/* Where a guest's block stands in a plan with an amendment sheet, or the refusal and whose it is. */
typedef struct CsLocated {
    uint32_t number;
    uint32_t place; /* of the block or of the refusal: in the sheet if sheet is 1, else in the plan */
    uint32_t sheet; /* 1 the sheet, 0 the plan */
} CsLocated;

/* Where usage keeps the ticks that guest g, from 0, idled away, and those that no guest had. */
#define CS_IDLED_AT(g) (8 + (g))
#define CS_NOBODYS 16

/* The dispatcher's state. Task t of guest g, both from 0, has its numbers at 16 * g + t. Its guests are Periodic ones.
 *
 * A state is outside its ranges, refusal 14, if cs_check refuses its plan, a guest of it is Deferrable, a number is
 * outside the range that is noted for it below, or one past its guests and tasks is not 0.
 *
 * Beside the state stands where the ticks went. A tick that is done adds 1
 * - to usage[g] if guest g had it, and to usage[8 + g] too if none of its tasks had run left and so it idled the
 *   tick away;
 * - to usage[16] if no guest had it.
 * Nothing else changes these numbers: a release leaves them, a run adds what its single ticks would, and a refused
 * call hands them back as they came. After 2^64 - 1 each goes on at 0. They have no range: any numbers are taken
 * and refusal 14 does not look at them, so a host may set them to 0 whenever it likes. From a fresh state on,
 * usage[0] to usage[count - 1] and usage[16] sum to the ticks done, modulo 2^64; places past the count count
 * nothing. */
typedef struct CsDispatcher {
    CsPlan plan;
    uint64_t usage[17];   /* ticks of each guest, those of them that it idled away, ticks that no guest had */
    uint32_t left[8];     /* capacity left, 0 to the capacity */
    uint32_t position[8]; /* position in the period, 0 to the period less 1 */
    uint32_t rest[128];   /* run left, at most the charged run */
    uint32_t wait[128];   /* ticks until the next release may be taken, at most the task's period */
    uint32_t age[128];    /* age of the last job, at most 1,000,000 */
} CsDispatcher;

typedef struct CsStart {
    CsRefusal refusal;
    CsDispatcher dispatcher; /* zero throughout on a refusal */
} CsStart;

typedef struct CsReleased {
    CsRefusal refusal;
    CsDispatcher dispatcher; /* unchanged on a refusal */
} CsReleased;

/* What had a tick. */
enum { CS_NO_ANSWER, CS_NOBODY, CS_IDLED, CS_RAN, CS_FINISHED };

typedef struct CsAnswer {
    uint32_t kind;
    uint32_t guest; /* its id, for idled, ran and finished */
    uint32_t task;  /* its number from 1, for ran and finished */
    uint32_t age;   /* for finished */
    int32_t margin; /* for finished: the deadline less the age, negative when late */
} CsAnswer;

typedef struct CsTicked {
    CsDispatcher dispatcher; /* unchanged on a refusal */
    CsRefusal refusal;
    CsAnswer answer;         /* no answer on a refusal */
} CsTicked;

/* What a tick in place gives. */
typedef struct CsTickIn {
    uint32_t number; /* the refusal's, or 0 */
    CsAnswer answer; /* no answer on a refusal */
} CsTickIn;

/* What a run in place gives. */
typedef struct CsRunIn {
    uint32_t number; /* the refusal's, or 0 */
    uint32_t done;   /* ticks done, 0 on a refusal */
    CsAnswer answer; /* of the last tick */
} CsRunIn;

typedef struct CsRun {
    CsRefusal refusal;
    uint32_t done;           /* ticks done, 0 on a refusal */
    CsAnswer answer;         /* the last tick's; no answer if none was done */
    CsDispatcher dispatcher; /* unchanged on a refusal */
} CsRun;

/* The most jobs of a log block. */
#define CS_MOST_JOBS 41

/* A finished job. */
typedef struct CsLogEntry {
    uint32_t guest; /* its id */
    uint32_t task;  /* its number from 1 */
    uint32_t age;   /* 1 to 1,000,000 ticks */
} CsLogEntry;

/* The jobs for one log block. Entries past the count are not looked at. */
typedef struct CsLogEntries {
    uint32_t count; /* 1 to 41 */
    CsLogEntry entries[CS_MOST_JOBS];
} CsLogEntries;

/* The running statement of finished jobs; zero throughout is an empty one. Line 16 * g + t is that of task t of the
 * guest at place g of the plan, both from 0. All 128 lines are held to these ranges, those of no task too. */
typedef struct CsStatement {
    uint64_t blocks;       /* log blocks counted, at most 1,000,000 */
    int64_t margins[128];  /* the exact sum of the margins, deadline less age: at most 999,999 for each job in size */
    uint32_t jobs[128];    /* the jobs counted, at most 41 for each block */
    uint32_t longest[128]; /* their longest age, at most 1,000,000 */
    uint32_t late[128];    /* how many of them were late, their age being past the deadline: at most all */
} CsStatement;

typedef struct CsStated {
    CsRefusal refusal;
    CsStatement statement; /* unchanged on a refusal */
    uint64_t passed;       /* blocks passed over, 0 on a refusal */
    uint64_t position;     /* of the first of them in this log, from 0; 0 if none was */
    uint32_t number;       /* by which the first of them was passed over; 0 if none was */
} CsStated;

/* What became of a block of a damaged plan file. */
typedef struct CsFate {
    uint32_t number; /* 0 kept; else the first reason that it was dropped by: 2, 3, 4, 5 or 6 */
    uint32_t place;  /* of a kept block the new one, else 0 */
} CsFate;

typedef struct CsSalvaged {
    CsRefusal refusal;
    uint32_t written; /* bytes written, 512 for each kept block; 0 on a refusal */
    uint32_t blocks;  /* whole blocks of the file, 0 with refusal 1 */
    CsFate fates[8];  /* of each of them, with refusals 12 and 20 too; zero past them */
} CsSalvaged;

/* Reads a plan's blocks.
 * Refusals: 1 for the length; then block by block 2 sum, 3 kind (neither 1, nor 2 with marks or a 1 in byte 22) or
 * place, 4 id, capacity, period or number of tasks, 5 a byte that must be zero, a mark past the tasks or another value
 * of byte 22, 6 a task's run, period (of a bound task, also if it is no multiple of the guest's) or deadline; 2 to 6
 * with the block's place. */
CsRead cs_read(const uint8_t *bytes, size_t length);

/* Checks records as a plan.
 * Refusals: 1 for the count; then guest by guest 4, 6, with the guest's place. */
CsRefusal cs_check(CsPlan plan);

/* Writes one guest's block at a place from 0 to the first 512 bytes of the buffer and to no others.
 * Refusals, with nothing written: 12 a buffer shorter than 512; 3 a place above 7; 4; 6; these three with the place
 * handed in; 23 a Deferrable guest. */
CsRefusal cs_write(CsGuest guest, uint32_t place, uint8_t *buffer, size_t length);

/* Finds a guest's block in a plan's blocks: with number 0 it is the 512 bytes from 512 * place on.
 * Refusals: those of cs_read, then 7 no such guest. */
CsRefusal cs_find(const uint8_t *bytes, size_t length, uint32_t id);

/* Verdict of a guest: 1 fitted, ticks is its response; 2 unfit.
 * Refusals: those of cs_check, then 7 no such guest. */
CsVerdict cs_guest_verdict(CsPlan plan, uint32_t id);

/* Verdict of a task, by its number from 1: 1 met, ticks is its response; 2 unmet, ticks is its response, or 0 if no
 * response is at most the task's period; 3 unjudged.
 * Refusals: those of cs_check, then 7 no such guest, 8 no such task. */
CsVerdict cs_task_verdict(CsPlan plan, uint32_t id, uint32_t task);

/* Verdict of a plan: 1 accepted; 2 not accepted.
 * Refusals: those of cs_check. */
CsVerdict cs_accept(CsPlan plan);

/* The smallest capacity at which the guest is fitted and all its tasks are met: verdict 1, ticks is the capacity.
 * Refusals: those of cs_check, then 7 no such guest, 11 no capacity works. */
CsVerdict cs_smallest_capacity(CsPlan plan, uint32_t id);

/* Proposes an order in which every task of the guest is met, the guests above it being as given: its tasks sorted by
 * deadline, equals as handed in. Each takes its run, period and deadline along; entries past its tasks, its marks, all
 * other guests and those past the count come back as handed in. Guests below are not judged.
 * Refusals: those of cs_check, then 7 no such guest, 21 the guest is Deferrable or has a mark among its tasks', 22 no
 * order works: the guest or one above is unfit, or in every order some task is not met. */
CsOrdered cs_order(CsPlan plan, uint32_t id);

/* Chooses the least capacities at which the plan is accepted: from the highest guest down, each guest's is the smallest
 * from 1 to its period at which the guest is fitted and all its tasks are met, the guests above having theirs. They are
 * least in every place at once: in any choice of capacities at which the plan is accepted no guest has less. Of the
 * capacities handed in only the ranges are looked at. Everything else comes back as handed in, guests past the count
 * too.
 * Refusals: those of cs_check, then 23 a Deferrable guest among those of the count, then 11 no capacity works, with the
 * place of the first guest of which that holds: the plan is then accepted at no choice of capacities. */
CsChosen cs_least_capacities(CsPlan plan);

/* The next five do the same for a plan that lies in the caller's memory, and copy none of it: its records are lent as
 * rows of words, as a CsGuest lies in memory on a machine that stores the low byte first. The functions with a CsPlan
 * below them are how they are meant to be called. */

/* Verdict of a guest. Refusals: as cs_guest_verdict. */
CsVerdict cs_guest_verdict_in(uint32_t count, const uint32_t rows[8][54], uint32_t id);

/* Verdict of a task. Refusals: as cs_task_verdict. */
CsVerdict cs_task_verdict_in(uint32_t count, const uint32_t rows[8][54], uint32_t id, uint32_t task);

/* Verdict of the plan. Refusals: as cs_accept. */
CsVerdict cs_accept_in(uint32_t count, const uint32_t rows[8][54]);

/* The smallest capacity. Refusals: as cs_smallest_capacity. */
CsVerdict cs_smallest_capacity_in(uint32_t count, const uint32_t rows[8][54], uint32_t id);

/* Puts the guest's tasks in the order proposed, in its row; a refused call changes nothing. Refusals: as cs_order. */
CsRefusal cs_order_in(uint32_t count, uint32_t rows[8][54], uint32_t id);

/* A plan's records as rows of words. */
#define CS_ROWS(plan) ((const uint32_t(*)[54])(const void *)(plan)->guests)

static inline CsVerdict cs_guest_verdict_at(const CsPlan *p, uint32_t id) {
    return cs_guest_verdict_in(p->count, CS_ROWS(p), id);
}

static inline CsVerdict cs_task_verdict_at(const CsPlan *p, uint32_t id, uint32_t task) {
    return cs_task_verdict_in(p->count, CS_ROWS(p), id, task);
}

static inline CsVerdict cs_accept_at(const CsPlan *p) {
    return cs_accept_in(p->count, CS_ROWS(p));
}

static inline CsVerdict cs_smallest_capacity_at(const CsPlan *p, uint32_t id) {
    return cs_smallest_capacity_in(p->count, CS_ROWS(p), id);
}

static inline CsRefusal cs_order_at(CsPlan *p, uint32_t id) {
    return cs_order_in(p->count, (uint32_t(*)[54])(void *)p->guests, id);
}

/* The next five take a standing plan's blocks and an amendment sheet: 1 to 8 blocks of guests of that plan, in any
 * order, each with its guest's place in the plan. They answer for the plan with those blocks replaced; neither the plan
 * nor the sheet is written.
 * Refusals of the pair, which each of them has first:
 * - the plan's, those of cs_read;
 * - then the sheet's, with the position in the sheet as the place: 1 for the length, with place 0; then block by block
 *   2 sum, 3 kind alone, 4 id (0, or that of an earlier block of the sheet), capacity, period or number of tasks, 5 a
 *   byte that must be zero, a mark past the tasks or another value of byte 22, 6 a task;
 * - then 16 for the first block of the sheet whose id is not in the plan, or whose place is not its guest's. */

/* Finds a guest's block: with number 0 it is the 512 bytes from 512 * place on, of the sheet if sheet is 1, else of the
 * plan.
 * Refusals: those of the pair, then 7 no such guest, which is the plan's. */
CsLocated cs_amended_find(const uint8_t *plan, size_t plan_length, const uint8_t *sheet, size_t sheet_length,
                          uint32_t id);

/* Verdict of a guest, told as by cs_guest_verdict.
 * Refusals: those of the pair, then 7 no such guest. */
CsVerdict cs_amended_guest_verdict(const uint8_t *plan, size_t plan_length, const uint8_t *sheet, size_t sheet_length,
                                   uint32_t id);

/* Verdict of a task, told as by cs_task_verdict.
 * Refusals: those of the pair, then 7 no such guest, 8 no such task. */
CsVerdict cs_amended_task_verdict(const uint8_t *plan, size_t plan_length, const uint8_t *sheet, size_t sheet_length,
                                  uint32_t id, uint32_t task);

/* Verdict of the plan, told as by cs_accept.
 * Refusals: those of the pair. */
CsVerdict cs_amended_accept(const uint8_t *plan, size_t plan_length, const uint8_t *sheet, size_t sheet_length);

/* The smallest capacity, told as by cs_smallest_capacity.
 * Refusals: those of the pair, then 7 no such guest, 11 no capacity works. */
CsVerdict cs_amended_smallest_capacity(const uint8_t *plan, size_t plan_length, const uint8_t *sheet,
                                       size_t sheet_length, uint32_t id);

/* A fresh state over the records as handed over, with no tick counted; the plan need not be an accepted one.
 * Refusals: those of cs_check, then 23 a Deferrable guest among those of the count. */
CsStart cs_fresh(CsPlan plan);

/* Releases a job of a task, by its number from 1.
 * Refusals: 14 a state outside its ranges (usage has none), 7 no such guest, 8 no such task, 17 a bound task while its
 * guest's position is not 0, 9 before its period has passed, 10 while its last job is unfinished. */
CsReleased cs_release(CsDispatcher dispatcher, uint32_t id, uint32_t task);

/* A pair of a sheet: a guest's id and a task's number from 1, which is below 65,536. */
#define CS_PAIR(id, task) (((uint64_t)(id) << 16) + (uint16_t)(task))

/* The most pairs of a sheet. */
#define CS_MOST_PAIRS 256

/* Releases many tasks in one call: pair i is guest id * 65536 + task number; answer i is 0 for taken, or the refusal's
 * number. The pairs are released one by one in order, each into the state that those before it left. Answers are
 * written for the pairs alone: places past their count stay as they were. The two lists must not overlap.
 * Refusals of a pair, in its answer alone: 7 no such guest (a guest part beyond 32 bits names none), 8 no such task,
 * 17 a bound task while its guest's position is not 0, 9 before its period has passed, 10 while its last job is
 * unfinished.
 * Refusals of the whole sheet, with no pair released, no answer written and place 0: 14 a state outside its ranges
 * (usage has none), 15 more than 256 pairs, 12 fewer answer places (room) than pairs (count). */
CsReleased cs_sheet(CsDispatcher dispatcher, const uint64_t *pairs, size_t count, uint32_t *answers, size_t room);

/* One tick.
 * Refusal: 14 a state outside its ranges (usage has none). */
CsTicked cs_tick(CsDispatcher dispatcher);

/* Ticks until one finishes a job or their number is used up.
 * Refusals: 14 a state outside its ranges (usage has none), 13 more than 1,000,000 ticks. */
CsRun cs_run(CsDispatcher dispatcher, uint32_t ticks);

/* The next five do the same on a state that lies in the caller's memory, and copy none of it: its plan is lent as rows
 * of words, as in the calls in place above, and its arrays are lent to be changed. They must not overlap. A refused
 * call changes nothing. The functions with a CsDispatcher below them are how they are meant to be called. */

/* A fresh start of the plan that stands in the state. Refusals: as cs_fresh. */
CsRefusal cs_fresh_in(uint32_t count, const uint32_t rows[8][54], uint32_t left[8], uint32_t position[8],
                      uint32_t rest[128], uint32_t wait[128], uint32_t age[128], uint64_t usage[17]);

/* A release: the number of its refusal, or 0. Refusals: as cs_release. */
uint32_t cs_release_in(uint32_t count, const uint32_t rows[8][54], const uint32_t left[8], const uint32_t position[8],
                       uint32_t rest[128], uint32_t wait[128], uint32_t age[128], uint32_t id, uint32_t task);

/* A sheet: the number of its refusal, or 0. Refusals: as cs_sheet. */
uint32_t cs_sheet_in(uint32_t count, const uint32_t rows[8][54], const uint32_t left[8], const uint32_t position[8],
                     uint32_t rest[128], uint32_t wait[128], uint32_t age[128], const uint64_t *pairs,
                     size_t pair_count, uint32_t *answers, size_t room);

/* A tick. Refusal: as cs_tick. */
CsTickIn cs_tick_in(uint32_t count, const uint32_t rows[8][54], uint32_t left[8], uint32_t position[8],
                    uint32_t rest[128], uint32_t wait[128], uint32_t age[128], uint64_t usage[17]);

/* Ticks until one finishes a job or their number is used up. Refusals: as cs_run. */
CsRunIn cs_run_in(uint32_t count, const uint32_t rows[8][54], uint32_t left[8], uint32_t position[8],
                  uint32_t rest[128], uint32_t wait[128], uint32_t age[128], uint64_t usage[17], uint32_t ticks);

static inline CsRefusal cs_fresh_at(CsDispatcher *d) {
    return cs_fresh_in(d->plan.count, CS_ROWS(&d->plan), d->left, d->position, d->rest, d->wait, d->age, d->usage);
}

static inline uint32_t cs_release_at(CsDispatcher *d, uint32_t id, uint32_t task) {
    return cs_release_in(d->plan.count, CS_ROWS(&d->plan), d->left, d->position, d->rest, d->wait, d->age, id, task);
}

static inline uint32_t cs_sheet_at(CsDispatcher *d, const uint64_t *pairs, size_t count, uint32_t *answers,
                                   size_t room) {
    return cs_sheet_in(d->plan.count, CS_ROWS(&d->plan), d->left, d->position, d->rest, d->wait, d->age, pairs, count,
                       answers, room);
}

static inline CsTickIn cs_tick_at(CsDispatcher *d) {
    return cs_tick_in(d->plan.count, CS_ROWS(&d->plan), d->left, d->position, d->rest, d->wait, d->age, d->usage);
}

static inline CsRunIn cs_run_at(CsDispatcher *d, uint32_t ticks) {
    return cs_run_in(d->plan.count, CS_ROWS(&d->plan), d->left, d->position, d->rest, d->wait, d->age, d->usage, ticks);
}

/* Writes a log block of these jobs to the first 512 bytes of the buffer and to no others. Guest ids and task numbers
 * are written as they are, and zeros for the entries past the count.
 * Refusals, with nothing written: 12 a buffer shorter than 512; 18 a count that is not 1 to 41, or an age, up to the
 * count, that is not 1 to 1,000,000. */
CsRefusal cs_write_log(CsLogEntries jobs, uint8_t *buffer, size_t length);

/* Adds a log of any number of blocks, none too, to the running statement against a plan's blocks. Against one plan, a
 * log cut between blocks and added part by part gives the same statement. A block that is passed over counts nothing.
 * A block is passed over by the first of these: 2 sum; 3 kind (not 3); 18 a number of jobs that is not 1 to 41, or an
 * age that is not 1 to 1,000,000; 5 a byte of 4 to 7, or past the entries, that is not zero; 7 an entry whose guest is
 * not in the plan; 8 an entry whose task is not in its guest; 19 a block when 1,000,000 are counted already.
 * Refusals of the whole call: the plan's, those of cs_read; then 14 a running statement outside its ranges; then 1 for
 * a log's length that is no multiple of 512, with place 0. */
CsStated cs_statement(CsStatement running, const uint8_t *plan, size_t plan_length, const uint8_t *log,
                      size_t log_length);

/* Salvages a damaged plan file of 0 to 4,096 bytes. A whole block that is right but for its place is kept, any other is
 * dropped, and so is a tail, which is not listed. Kept blocks are written to the output in order, with their places and
 * checks written anew and nothing else in them changed, byte 22 as it is found; past them the output stays as it was.
 * What is written reads as a plan, and of a file with nothing wrong it is the file. The file and the output must not
 * overlap.
 * A block is dropped by the first of these: 2 sum; 3 kind alone; 4 id (0, or that of an earlier block that is kept),
 * capacity, period or number of tasks; 5 a byte that must be zero, a mark past the tasks or another value of byte 22;
 * 6 a task.
 * Refusals, with nothing written and place 0: 1 a file above 4,096 bytes, with no block listed; 12 an output shorter
 * than the kept blocks; 20 nothing kept. */
CsSalvaged cs_salvage(const uint8_t *file, size_t file_len, uint8_t *out, size_t out_len);

/* Converts an old plan: every Deferrable guest becomes a Periodic one with the same numbers. The plan's blocks are
 * written to the output. That of a Deferrable guest has byte 22 zero then, kind 1 if no task of it is bound, and its
 * check written anew; nothing else changes, and past the plan the output stays as it was. What is written reads as a
 * plan, and of a plan without Deferrable guests it is the plan's own bytes. Every guest that was fitted and every task
 * that was met stays so, with a response no larger. The plan and the output must not overlap.
 * Refusals, with nothing written: those of cs_read, then 12 an output shorter than the plan. */
CsRefusal cs_convert(const uint8_t *plan, size_t plan_len, uint8_t *out, size_t out_len);

#ifdef __cplusplus
}
#endif

#endif
