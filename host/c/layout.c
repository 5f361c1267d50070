/* Prints the size, the alignment and each field's offset of every struct, as a C compiler lays them out, and some marks
 * and pairs. The wrapper's layout test prints the same from Rust and compares. */
#include "coreshare.h"

#include <inttypes.h>
#include <stdio.h>

#define STRUCT(name) printf(#name " size %zu align %zu\n", sizeof(name), _Alignof(name))
#define FIELD(name, field) \
    printf(#name "." #field " at %zu size %zu\n", offsetof(name, field), sizeof(((name *)0)->field))

static void records(void) {
    STRUCT(CsGuest);
    FIELD(CsGuest, id);
    FIELD(CsGuest, capacity);
    FIELD(CsGuest, period);
    FIELD(CsGuest, tasks);
    FIELD(CsGuest, charge);
    FIELD(CsGuest, marks);
    FIELD(CsGuest, deferrable);
    FIELD(CsGuest, run);
    FIELD(CsGuest, every);
    FIELD(CsGuest, deadline);
    STRUCT(CsPlan);
    FIELD(CsPlan, count);
    FIELD(CsPlan, guests);
    STRUCT(CsRefusal);
    FIELD(CsRefusal, number);
    FIELD(CsRefusal, place);
    STRUCT(CsRead);
    FIELD(CsRead, refusal);
    FIELD(CsRead, plan);
    STRUCT(CsOrdered);
    FIELD(CsOrdered, refusal);
    FIELD(CsOrdered, plan);
    STRUCT(CsChosen);
    FIELD(CsChosen, refusal);
    FIELD(CsChosen, plan);
    STRUCT(CsVerdict);
    FIELD(CsVerdict, number);
    FIELD(CsVerdict, place);
    FIELD(CsVerdict, verdict);
    FIELD(CsVerdict, ticks);
    STRUCT(CsLocated);
    FIELD(CsLocated, number);
    FIELD(CsLocated, place);
    FIELD(CsLocated, sheet);
}

static void dispatcher(void) {
    STRUCT(CsDispatcher);
    FIELD(CsDispatcher, plan);
    FIELD(CsDispatcher, usage);
    FIELD(CsDispatcher, left);
    FIELD(CsDispatcher, position);
    FIELD(CsDispatcher, rest);
    FIELD(CsDispatcher, wait);
    FIELD(CsDispatcher, age);
    STRUCT(CsStart);
    FIELD(CsStart, refusal);
    FIELD(CsStart, dispatcher);
    STRUCT(CsReleased);
    FIELD(CsReleased, refusal);
    FIELD(CsReleased, dispatcher);
    STRUCT(CsAnswer);
    FIELD(CsAnswer, kind);
    FIELD(CsAnswer, guest);
    FIELD(CsAnswer, task);
    FIELD(CsAnswer, age);
    FIELD(CsAnswer, margin);
    STRUCT(CsTicked);
    FIELD(CsTicked, dispatcher);
    FIELD(CsTicked, refusal);
    FIELD(CsTicked, answer);
    STRUCT(CsTickIn);
    FIELD(CsTickIn, number);
    FIELD(CsTickIn, answer);
    STRUCT(CsRunIn);
    FIELD(CsRunIn, number);
    FIELD(CsRunIn, done);
    FIELD(CsRunIn, answer);
    STRUCT(CsRun);
    FIELD(CsRun, refusal);
    FIELD(CsRun, done);
    FIELD(CsRun, answer);
    FIELD(CsRun, dispatcher);
}

static void statement(void) {
    STRUCT(CsLogEntry);
    FIELD(CsLogEntry, guest);
    FIELD(CsLogEntry, task);
    FIELD(CsLogEntry, age);
    STRUCT(CsLogEntries);
    FIELD(CsLogEntries, count);
    FIELD(CsLogEntries, entries);
    STRUCT(CsStatement);
    FIELD(CsStatement, blocks);
    FIELD(CsStatement, margins);
    FIELD(CsStatement, jobs);
    FIELD(CsStatement, longest);
    FIELD(CsStatement, late);
    STRUCT(CsStated);
    FIELD(CsStated, refusal);
    FIELD(CsStated, statement);
    FIELD(CsStated, passed);
    FIELD(CsStated, position);
    FIELD(CsStated, number);
}

static void salvage(void) {
    STRUCT(CsFate);
    FIELD(CsFate, number);
    FIELD(CsFate, place);
    STRUCT(CsSalvaged);
    FIELD(CsSalvaged, refusal);
    FIELD(CsSalvaged, written);
    FIELD(CsSalvaged, blocks);
    FIELD(CsSalvaged, fates);
}

static void marks(void) {
    printf("mark %u\n", (unsigned)CS_MARK(1));
    printf("mark %u\n", (unsigned)CS_MARK(16));
}

static void pairs(void) {
    printf("pair %" PRIu64 "\n", CS_PAIR(9, 2));
    printf("pair %" PRIu64 "\n", CS_PAIR(UINT32_MAX, UINT16_MAX));
}

int main(void) {
    records();
    dispatcher();
    statement();
    salvage();
    marks();
    pairs();
    return 0;
}
