/* Bytes may stand anywhere: sheet, question and store at every offset from a multiple of 8, each by itself and in every way together, by all ways to
 * ask. The answers are document 01's, and the tallies and stores those at offset 0. */
#include <stdio.h>
#include <string.h>

#include "sheet_l.h"
#include "sofretu.h"

enum { OFFSETS = 8, ENTRIES = 9, STORE = ENTRIES * SOFRETU_ENTRY, WAYS = 4 };

/* Bytes around what is lent, which no call may change. */
enum { FILL = 0xA5, MARGIN = 16 };

typedef union {
    uint64_t aligned;
    uint8_t bytes[512];
} memory;

static memory sheet_memory, question_memory, store_memory, store_expected;
static uint64_t tallies[QUESTIONS][SOFRETU_TALLY_ROWS];
static int tallies_known;

static sofretu_checked_sheet checked_sheet;
static sofretu_noted_sheet noted_sheet;
static sofretu_checked_store checked_store;
static sofretu_run run;
static sofretu_sheet sheet;
static sofretu_session session;

static int wrong(const char *what, int way, int question) {
    fprintf(stderr, "%s: way %d, question %d\n", what, way, question);
    return 1;
}

static int same_numbers(const int64_t *a, const int64_t *b) {
    return memcmp(a, b, SOFRETU_FIELDS * sizeof *a) == 0;
}

/* Puts the four questions to an empty store, in one way. */
static int ask_all(int way, const uint8_t *sheet_at, uint8_t *question_at, uint8_t *store_at) {
    uint64_t kept = 0, place, found[3];
    sofretu_store store;
    if (way == 2 && (sofretu_check_sheet(sheet_at, sizeof sheet_l, &checked_sheet, &noted_sheet, found) != 0 ||
                     sofretu_check_store(sheet_at, sizeof sheet_l, &checked_sheet, store_at, STORE, kept, &checked_store, &place) != 0)) {
        return wrong("a check refuses", way, 0);
    }
    if (way == 3 && (sofretu_sheet_load(&sheet, sheet_at, sizeof sheet_l) != 0 || sofretu_store_lend(&store, store_at, STORE, 0) != 0 ||
                     sofretu_session_open(&session, &sheet, &store, &run) != 0)) {
        return wrong("a handle is refused", way, 0);
    }
    for (int q = 0; q < QUESTIONS; q++) {
        int64_t fields[SOFRETU_FIELDS];
        uint64_t tally[SOFRETU_TALLY_ROWS];
        uint64_t len = questions_l[q].len;
        memcpy(question_at, questions_l[q].bytes, len);
        if (sofretu_check(sheet_at, sizeof sheet_l, question_at, len, store_at, STORE, kept, SOFRETU_MOST_STEPS, &place) != 0) {
            return wrong("sofretu_check refuses", way, q);
        }
        if (way == 0) {
            sofretu_ask(sheet_at, sizeof sheet_l, question_at, len, store_at, STORE, kept, SOFRETU_MOST_STEPS, fields, tally);
        } else if (way == 1) {
            sofretu_ask_in(sheet_at, sizeof sheet_l, question_at, len, store_at, STORE, kept, SOFRETU_MOST_STEPS, &checked_sheet, &noted_sheet,
                           &checked_store, &run, fields, tally);
        } else if (way == 2) {
            sofretu_ask_checked(sheet_at, sizeof sheet_l, &checked_sheet, &noted_sheet, question_at, len, store_at, STORE, kept, SOFRETU_MOST_STEPS,
                                &checked_store, &run, fields, tally);
        } else {
            sofretu_answer answer;
            sofretu_session_ask(&session, question_at, len, SOFRETU_MOST_STEPS, &answer);
            fields[SOFRETU_NUMBER] = answer.number;
            fields[SOFRETU_PLACE] = (int64_t)answer.place;
            fields[SOFRETU_TYPE] = answer.type;
            fields[SOFRETU_VALUE] = answer.value;
            fields[SOFRETU_STEPS] = (int64_t)answer.steps;
            fields[SOFRETU_KEPT] = (int64_t)answer.kept;
            memcpy(tally, answer.tally, sizeof tally);
        }
        if (!same_numbers(fields, questions_l[q].answer)) {
            return wrong("another answer", way, q);
        }
        if (!tallies_known) {
            memcpy(tallies[q], tally, sizeof tally);
        } else if (memcmp(tallies[q], tally, sizeof tally) != 0) {
            return wrong("another tally", way, q);
        }
        kept = (uint64_t)fields[SOFRETU_KEPT];
    }
    tallies_known = 1;
    return 0;
}

/* One way with the bytes at some offsets: the stores must be the same, and nothing around them be written. */
static int ask_at(int way, int sheet_offset, int question_offset, int store_offset) {
    uint8_t *store_at = store_memory.bytes + MARGIN + store_offset;
    memset(&sheet_memory, FILL, sizeof sheet_memory);
    memset(&question_memory, FILL, sizeof question_memory);
    memset(&store_memory, FILL, sizeof store_memory);
    memcpy(sheet_memory.bytes + MARGIN + sheet_offset, sheet_l, sizeof sheet_l);
    if (ask_all(way, sheet_memory.bytes + MARGIN + sheet_offset, question_memory.bytes + MARGIN + question_offset, store_at) != 0) {
        return 1;
    }
    if (way == 0 && sheet_offset == 0 && question_offset == 0 && store_offset == 0) {
        memcpy(&store_expected, &store_memory, sizeof store_memory);
    }
    if (memcmp(store_at, store_expected.bytes + MARGIN, STORE) != 0) {
        return wrong("another store", way, QUESTIONS);
    }
    for (size_t i = 0; i < sizeof store_memory; i++) {
        int lent = i >= (size_t)(MARGIN + store_offset) && i < (size_t)(MARGIN + store_offset + STORE);
        if (!lent && store_memory.bytes[i] != FILL) {
            return wrong("a byte beside the store is written", way, QUESTIONS);
        }
    }
    return 0;
}

int main(void) {
    int runs = 0;
    for (int way = 0; way < WAYS; way++) {
        for (int offsets = 0; offsets < OFFSETS * OFFSETS * OFFSETS; offsets++) {
            int of_sheet = offsets / OFFSETS / OFFSETS, of_question = offsets / OFFSETS % OFFSETS, of_store = offsets % OFFSETS;
            if (ask_at(way, of_sheet, of_question, of_store) != 0) {
                fprintf(stderr, "sheet at offset %d, question at %d, store at %d\n", of_sheet, of_question, of_store);
                return 1;
            }
            runs++;
        }
    }
    /* What a store holds past the kept entries stays, so the ninth entry is as it was filled. */
    for (int i = 0; i < SOFRETU_ENTRY; i++) {
        if (store_expected.bytes[MARGIN + STORE - SOFRETU_ENTRY + i] != FILL) {
            return wrong("an entry that is not kept is written", 0, QUESTIONS);
        }
    }
    printf("%d runs\n", runs);
    return 0;
}
