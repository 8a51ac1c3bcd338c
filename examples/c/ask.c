/* Sheet L of document 01 and four questions to one store, in a session. Prints number, place, type, value, steps and kept of each answer, then where
 * the steps of the first went, and the figures that the store keeps. C99 or C++.
 *
 *     scripts/build.sh
 *     gcc -std=c99 -Iinclude examples/c/ask.c target/staticlib/libsofretu.a -o ask && ./ask
 */
#include <inttypes.h>
#include <stdint.h>
#include <stdio.h>

#include "sofretu.h"

static const uint8_t sheet[] = {
    /* attributes: up is a Node, own and dial are Ints; each without parameter */
    0x41, 3, 0, 0x41, 2, 0, 0x41, 2, 0,
    /* node 0 of kind 0, nodes 1 and 2 of kind 1 */
    0x4E, 0, 0x4E, 1, 0x4E, 1,
    /* figures: node 0 has up null and own 700, node 1 up 0 and own 0, node 2 up 0 and own 811 */
    0x56, 0, 0, 0, 0xFF, 0xFF, 0, 0, 0x56, 0, 0, 1, 0xBC, 0x02, 0, 0,
    0x56, 1, 0, 0, 0, 0, 0, 0, 0x56, 1, 0, 1, 0, 0, 0, 0,
    0x56, 2, 0, 0, 0, 0, 0, 0, 0x56, 2, 0, 1, 0x2B, 0x03, 0, 0,
    /* kind 0's dial: own of this node */
    0x52, 0, 2, 4, 0, 0x22, 1, 0x30, 0x10,
    /* kind 1's dial: IF equal(own)(0) THEN up.dial ELSE own */
    0x52, 1, 2, 25, 0, 0x20, 0x21, 0x21, 0x14, 1, 0x22, 1, 0x30, 0x10, 0x12, 0, 0, 0, 0,
    0x22, 2, 0x22, 0, 0x30, 0x10, 0x10, 0x22, 1, 0x30, 0x10,
    0x5A};

static const uint8_t dial_1[] = {0x22, 2, 0x13, 1, 0, 0x10};
static const uint8_t dial_2[] = {0x22, 2, 0x13, 2, 0, 0x10};
static const uint8_t own_of_null[] = {0x22, 1, 0x22, 0, 0x13, 0, 0, 0x10, 0x10};

static const struct {
    const uint8_t *bytes;
    uint64_t len;
} questions[] = {
    {dial_1, sizeof dial_1},
    {dial_1, sizeof dial_1},
    {dial_2, sizeof dial_2},
    {own_of_null, sizeof own_of_null}};

/* Too large for a stack. A server has one sofretu_sheet for each sheet, one sofretu_session for each store, and one sofretu_run for each thread. */
static sofretu_sheet loaded;
static sofretu_session session;
static sofretu_run run;
static uint8_t memory[SOFRETU_MOST_ENTRIES * SOFRETU_ENTRY];

/* Says what is wrong, and who can mend it. Stops are numbers above 0, misuses of the library numbers below 0. */
static int failed(const char *what, int32_t number, uint64_t place) {
    fprintf(stderr, "%s: number %" PRId32 " at %" PRIu64 ": %s (caused by %s)\n", what, number, place, sofretu_text(number), sofretu_cause(number));
    return 1;
}

static void print_answer(const sofretu_answer *answer) {
    printf("%" PRId32 " %" PRIu64 " %" PRIu32 " %" PRId64 " %" PRIu64 " %" PRIu64 "\n", answer->number, answer->place, answer->type, answer->value,
           answer->steps, answer->kept);
}

/* The rows that are not 0, in words. */
static void print_tally(const uint64_t tally[SOFRETU_TALLY_ROWS]) {
    for (int row = 0; row < SOFRETU_TALLY_ROWS; row++) {
        if (tally[row] == 0) {
            continue;
        }
        if (row == SOFRETU_APPLICATIONS) {
            printf("applications: %" PRIu64 "\n", tally[row]);
        } else if (row == SOFRETU_CONDITIONS) {
            printf("conditions: %" PRIu64 "\n", tally[row]);
        } else {
            printf("attribute %d: %" PRIu64 "\n", row, tally[row]);
        }
    }
}

int main(void) {
    sofretu_store store;
    sofretu_answer answers[sizeof questions / sizeof questions[0]];

    /* The sheet is checked once, and the store once for the session. */
    int32_t number = sofretu_sheet_load(&loaded, sheet, sizeof sheet);
    if (number != 0) {
        return failed("sheet", number, loaded.place);
    }
    number = sofretu_store_lend(&store, memory, sizeof memory, 0);
    if (number != 0) {
        return failed("store", number, 0);
    }
    number = sofretu_session_open(&session, &loaded, &store, &run);
    if (number != 0) {
        return failed("session", number, session.place);
    }

    /* A stop is an answer like any other: the last of the four is one, because node 0 has nothing above it. A misuse is an error of this program. */
    for (size_t i = 0; i < sizeof questions / sizeof questions[0]; i++) {
        number = sofretu_session_ask(&session, questions[i].bytes, questions[i].len, SOFRETU_MOST_STEPS, &answers[i]);
        if (number < 0) {
            return failed("question", number, 0);
        }
        print_answer(&answers[i]);
    }
    number = sofretu_session_close(&session);
    if (number != 0) {
        return failed("session", number, 0);
    }

    printf("steps of the first question:\n");
    print_tally(answers[0].tally);

    /* The store is this program's again: its kept entries may be read, and written to a file for the next session with this sheet. */
    printf("kept:\n");
    for (uint64_t i = 0; i < store.kept; i++) {
        sofretu_entry entry;
        number = sofretu_store_entry(&store, i, &entry);
        if (number != 0) {
            return failed("entry", number, i);
        }
        printf("attribute %" PRIu32 " of node %" PRIu32 ": %" PRId64 "\n", entry.attribute, entry.node, entry.value);
    }
    return 0;
}
