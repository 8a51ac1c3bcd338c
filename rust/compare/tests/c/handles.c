/* Every misuse that the functions of the handles refuse, with what each leaves as it was: all memory is compared with what it was before the call.
 * The library's version is asked through the linker's --wrap=sofretu_version, so that another one can be pretended.
 * Prints how many calls were tried. */
#include <stdio.h>
#include <stdlib.h>
#include <string.h>

#include "sheet_l.h"
#include "sofretu.h"

enum { ENTRIES = 9, STORE = ENTRIES * SOFRETU_ENTRY, FILL = 0xA5, BUDGET = 1000 };

/* All that a call could write. */
typedef struct {
    sofretu_sheet sheet;
    sofretu_sheet other_sheet;
    sofretu_session session;
    sofretu_session other_session;
    sofretu_run run;
    sofretu_store store;
    sofretu_answer answer;
    sofretu_entry entry;
    uint64_t spare[512];
    uint8_t sheet_bytes[sizeof sheet_l + 1];
    uint8_t store_bytes[STORE];
    uint8_t question[LONGEST_QUESTION];
} world;

static world *w;
static world *before;
static int tried;

#ifdef __cplusplus
extern "C" {
#endif
static uint32_t pretended;
uint32_t __real_sofretu_version(void);
uint32_t __wrap_sofretu_version(void);
uint32_t __wrap_sofretu_version(void) {
    return pretended != 0 ? pretended : __real_sofretu_version();
}
#ifdef __cplusplus
}
#endif

static void fail(int line, const char *what) {
    fprintf(stderr, "line %d: %s\n", line, what);
    exit(1);
}

#define MUST(holds)                   \
    do {                              \
        if (!(holds)) {               \
            fail(__LINE__, #holds);   \
        }                             \
    } while (0)

/* A call with its number, under which it writes nothing. */
#define REFUSES(number, call)                                    \
    do {                                                         \
        memcpy(before, w, sizeof *w);                            \
        tried++;                                                 \
        if ((call) != (number)) {                                \
            fail(__LINE__, #call " is not " #number);            \
        }                                                        \
        if (memcmp(before, w, sizeof *w) != 0) {                 \
            fail(__LINE__, #call " writes");                     \
        }                                                        \
    } while (0)

/* A question with its number, under which it writes the answer alone. */
#define ASK_REFUSES(number, kept, session, question, len)                      \
    do {                                                                       \
        memcpy(before, w, sizeof *w);                                          \
        memset(&w->answer, FILL, sizeof w->answer);                            \
        tried++;                                                               \
        if (sofretu_session_ask(session, question, len, BUDGET, &w->answer) != (number)) { \
            fail(__LINE__, "sofretu_session_ask is not " #number);             \
        }                                                                      \
        is_refusal(__LINE__, number, kept);                                    \
        w->answer = before->answer;                                            \
        if (memcmp(before, w, sizeof *w) != 0) {                               \
            fail(__LINE__, "sofretu_session_ask writes more than the answer"); \
        }                                                                      \
    } while (0)

static void is_refusal(int line, int32_t number, uint64_t kept) {
    const sofretu_answer *a = &w->answer;
    int zeros = a->type == 0 && a->value == 0 && a->place == 0 && a->steps == 0;
    for (int row = 0; row < SOFRETU_TALLY_ROWS; row++) {
        zeros = zeros && a->tally[row] == 0;
    }
    if (!zeros || a->number != number || a->kept != kept) {
        fail(line, "the answer is not filled");
    }
}

/* The world from zeros: sheet and store are ready, nothing is loaded or open. */
static void start(void) {
    memset(w, 0, sizeof *w);
    memcpy(w->sheet_bytes, sheet_l, sizeof sheet_l);
    memset(w->store_bytes, FILL, sizeof w->store_bytes);
    memcpy(w->question, questions_l[0].bytes, questions_l[0].len);
    MUST(sofretu_store_lend(&w->store, w->store_bytes, STORE, 0) == 0);
}

static void load(void) {
    start();
    MUST(sofretu_sheet_load(&w->sheet, w->sheet_bytes, sizeof sheet_l) == 0);
}

static void open_session(void) {
    load();
    MUST(sofretu_session_open(&w->session, &w->sheet, &w->store, &w->run) == 0);
}

/* Question q, answered as document 01 says. */
static void answers(int q) {
    const int64_t *expected = questions_l[q].answer;
    const sofretu_answer *a = &w->answer;
    uint64_t steps = 0;
    memset(&w->answer, FILL, sizeof w->answer);
    MUST(sofretu_session_ask(&w->session, questions_l[q].bytes, questions_l[q].len, BUDGET, &w->answer) == expected[SOFRETU_NUMBER]);
    MUST(a->number == expected[SOFRETU_NUMBER] && a->place == 0 && a->type == (uint32_t)expected[SOFRETU_TYPE]);
    MUST(a->value == expected[SOFRETU_VALUE] && a->steps == (uint64_t)expected[SOFRETU_STEPS] && a->kept == (uint64_t)expected[SOFRETU_KEPT]);
    for (int row = 0; row < SOFRETU_TALLY_ROWS; row++) {
        steps += a->tally[row];
    }
    MUST(steps == a->steps && w->store.kept == a->kept);
    tried++;
}

/* An address inside some memory, as a handle of some type. */
#define INSIDE(type, memory, offset) ((type *)(void *)((uint8_t *)(memory) + (offset)))

static void sizes(void) {
    MUST(sizeof(sofretu_sheet) <= 130 * 1024);
    MUST(sizeof(sofretu_run) <= 80 * 1024);
    MUST(sizeof(sofretu_session) <= 19 * 1024);
}

static void loading(void) {
    start();
    pretended = SOFRETU_VERSION + 1;
    REFUSES(SOFRETU_MISUSE_VERSION, sofretu_sheet_load(&w->sheet, w->sheet_bytes, sizeof sheet_l));
    pretended = 0;
    REFUSES(SOFRETU_MISUSE_NULL, sofretu_sheet_load(NULL, w->sheet_bytes, sizeof sheet_l));
    REFUSES(SOFRETU_MISUSE_NULL, sofretu_sheet_load(&w->sheet, NULL, 1));
    for (int offset = 1; offset < 8; offset++) {
        REFUSES(SOFRETU_MISUSE_ALIGNMENT, sofretu_sheet_load(INSIDE(sofretu_sheet, &w->sheet, offset), w->sheet_bytes, sizeof sheet_l));
    }
    REFUSES(SOFRETU_MISUSE_OVERLAP, sofretu_sheet_load(&w->sheet, (const uint8_t *)&w->sheet, sizeof sheet_l));
    REFUSES(SOFRETU_MISUSE_OVERLAP, sofretu_sheet_load(&w->sheet, (const uint8_t *)(&w->sheet + 1) - 1, sizeof sheet_l));
    REFUSES(SOFRETU_MISUSE_OVERLAP, sofretu_sheet_load(&w->other_sheet, (const uint8_t *)&w->other_sheet - 1, 2));
    /* Bytes that end where the handle begins, or begin where it ends, are read: the zero there is no command. */
    MUST(sofretu_sheet_load(&w->other_sheet, (const uint8_t *)&w->other_sheet - 1, 1) == SOFRETU_COMMAND);
    MUST(sofretu_sheet_load(&w->sheet, (const uint8_t *)(&w->sheet + 1), 1) == SOFRETU_COMMAND);
    /* The empty sheet is refused at 0, and may be NULL. */
    MUST(sofretu_sheet_load(&w->sheet, NULL, 0) == SOFRETU_COMMAND && w->sheet.place == 0);
    REFUSES(SOFRETU_MISUSE_NOT_LOADED, sofretu_sheet_unload(&w->sheet));
    /* A stop has its place, and what was loaded before is loaded no more. */
    MUST(sofretu_sheet_load(&w->sheet, w->sheet_bytes, sizeof sheet_l) == 0);
    MUST(w->sheet.attributes == 3 && w->sheet.nodes == 3 && w->sheet.place == 0);
    MUST(sofretu_sheet_load(&w->sheet, w->sheet_bytes, sizeof sheet_l + 1) == SOFRETU_COMMAND);
    MUST(w->sheet.attributes == 0 && w->sheet.nodes == 0 && w->sheet.place == sizeof sheet_l);
    REFUSES(SOFRETU_MISUSE_NOT_LOADED, sofretu_sheet_unload(&w->sheet));
}

static void unloading(void) {
    load();
    REFUSES(SOFRETU_MISUSE_NULL, sofretu_sheet_unload(NULL));
    REFUSES(SOFRETU_MISUSE_ALIGNMENT, sofretu_sheet_unload(INSIDE(sofretu_sheet, &w->sheet, 4)));
    REFUSES(SOFRETU_MISUSE_NOT_LOADED, sofretu_sheet_unload(&w->other_sheet));
    w->other_sheet = w->sheet;
    REFUSES(SOFRETU_MISUSE_NOT_LOADED, sofretu_sheet_unload(&w->other_sheet));
    memset(&w->other_sheet, FILL, sizeof w->other_sheet);
    REFUSES(SOFRETU_MISUSE_NOT_LOADED, sofretu_sheet_unload(&w->other_sheet));
    MUST(sofretu_sheet_unload(&w->sheet) == 0);
    REFUSES(SOFRETU_MISUSE_NOT_LOADED, sofretu_sheet_unload(&w->sheet));
}

static void lending(void) {
    start();
    REFUSES(SOFRETU_MISUSE_NULL, sofretu_store_lend(NULL, w->store_bytes, STORE, 0));
    REFUSES(SOFRETU_MISUSE_NULL, sofretu_store_lend(&w->store, NULL, STORE, 0));
    REFUSES(SOFRETU_MISUSE_ALIGNMENT, sofretu_store_lend(INSIDE(sofretu_store, w->spare, 3), w->store_bytes, STORE, 0));
    REFUSES(SOFRETU_MISUSE_OVERLAP, sofretu_store_lend(&w->store, INSIDE(uint8_t, &w->store, sizeof w->store - 1), STORE, 0));
    REFUSES(SOFRETU_MISUSE_OVERLAP, sofretu_store_lend(&w->store, (uint8_t *)&w->store - 11, SOFRETU_ENTRY, 0));
    MUST(sofretu_store_lend(&w->store, INSIDE(uint8_t, &w->store, 1), 0, 0) == 0);
    MUST(sofretu_store_lend(&w->store, NULL, 0, 7) == 0 && w->store.bytes == NULL && w->store.len == 0 && w->store.kept == 7);
}

static void opening(void) {
    sofretu_store nowhere = {NULL, SOFRETU_ENTRY, 0};
    load();
    pretended = SOFRETU_VERSION - 1;
    REFUSES(SOFRETU_MISUSE_VERSION, sofretu_session_open(&w->session, &w->sheet, &w->store, &w->run));
    pretended = 0;
    REFUSES(SOFRETU_MISUSE_NULL, sofretu_session_open(NULL, &w->sheet, &w->store, &w->run));
    REFUSES(SOFRETU_MISUSE_NULL, sofretu_session_open(&w->session, NULL, &w->store, &w->run));
    REFUSES(SOFRETU_MISUSE_NULL, sofretu_session_open(&w->session, &w->sheet, NULL, &w->run));
    REFUSES(SOFRETU_MISUSE_NULL, sofretu_session_open(&w->session, &w->sheet, &w->store, NULL));
    REFUSES(SOFRETU_MISUSE_NULL, sofretu_session_open(&w->session, &w->sheet, &nowhere, &w->run));
    for (int offset = 1; offset < 8; offset++) {
        REFUSES(SOFRETU_MISUSE_ALIGNMENT, sofretu_session_open(INSIDE(sofretu_session, &w->session, offset), &w->sheet, &w->store, &w->run));
        REFUSES(SOFRETU_MISUSE_ALIGNMENT, sofretu_session_open(&w->session, INSIDE(sofretu_sheet, &w->sheet, offset), &w->store, &w->run));
        REFUSES(SOFRETU_MISUSE_ALIGNMENT, sofretu_session_open(&w->session, &w->sheet, INSIDE(sofretu_store, w->spare, offset), &w->run));
        REFUSES(SOFRETU_MISUSE_ALIGNMENT, sofretu_session_open(&w->session, &w->sheet, &w->store, INSIDE(sofretu_run, &w->run, offset)));
    }
    REFUSES(SOFRETU_MISUSE_NOT_LOADED, sofretu_session_open(&w->session, &w->other_sheet, &w->store, &w->run));
    w->other_sheet = w->sheet;
    REFUSES(SOFRETU_MISUSE_NOT_LOADED, sofretu_session_open(&w->session, &w->other_sheet, &w->store, &w->run));
    memset(&w->other_sheet, FILL, sizeof w->other_sheet);
    REFUSES(SOFRETU_MISUSE_NOT_LOADED, sofretu_session_open(&w->session, &w->other_sheet, &w->store, &w->run));
    MUST(sofretu_sheet_load(&w->other_sheet, w->sheet_bytes, 1) == SOFRETU_COMMAND);
    REFUSES(SOFRETU_MISUSE_NOT_LOADED, sofretu_session_open(&w->session, &w->other_sheet, &w->store, &w->run));
    REFUSES(SOFRETU_MISUSE_NOT_OPEN, sofretu_session_close(&w->session));

    /* Opening writes the session alone: neither store nor scratch are cleared. */
    memset(&w->run, FILL, sizeof w->run);
    memcpy(before, w, sizeof *w);
    MUST(sofretu_session_open(&w->session, &w->sheet, &w->store, &w->run) == 0);
    before->session = w->session;
    MUST(memcmp(before, w, sizeof *w) == 0);
    /* Under a misuse an open session stays open. */
    REFUSES(SOFRETU_MISUSE_NULL, sofretu_session_open(&w->session, &w->sheet, &nowhere, &w->run));
    answers(0);
    /* A store that is refused leaves the session closed, and nothing but the session is written. */
    w->store.len = STORE - 1;
    memcpy(before, w, sizeof *w);
    MUST(sofretu_session_open(&w->session, &w->sheet, &w->store, &w->run) == SOFRETU_STORE_SHAPE && w->session.place == 0);
    before->session = w->session;
    MUST(memcmp(before, w, sizeof *w) == 0);
    w->store.len = STORE;
    ASK_REFUSES(SOFRETU_MISUSE_NOT_OPEN, 0, &w->session, w->question, 6);
    MUST(sofretu_session_open(&w->session, &w->sheet, &w->store, &w->run) == 0);
    answers(1);
    w->store_bytes[3 * SOFRETU_ENTRY + 3] = 1;
    MUST(sofretu_session_open(&w->session, &w->sheet, &w->store, &w->run) == SOFRETU_STORE_ENTRY && w->session.place == 3);
    ASK_REFUSES(SOFRETU_MISUSE_NOT_OPEN, 0, &w->session, w->question, 6);
    /* A dump is opened with what it keeps. */
    w->store_bytes[3 * SOFRETU_ENTRY + 3] = 2;
    MUST(sofretu_store_lend(&w->store, w->store_bytes, STORE, 5) == 0);
    MUST(sofretu_session_open(&w->session, &w->sheet, &w->store, &w->run) == 0 && w->session.place == 0);
    answers(1);
    answers(2);
    answers(3);
}

/* Each two of what opening a session is given, but for what is read alone. */
static void opening_with_overlaps(void) {
    sofretu_store store;
    uint8_t *spare;
    load();
    spare = (uint8_t *)w->spare;
    /* a session and: its sheet, the sheet's bytes, the store's bytes, the run, the store */
    REFUSES(SOFRETU_MISUSE_OVERLAP, sofretu_session_open(INSIDE(sofretu_session, &w->sheet, 8), &w->sheet, &w->store, &w->run));
    memcpy(&w->other_session, sheet_l, sizeof sheet_l);
    MUST(sofretu_sheet_load(&w->sheet, (const uint8_t *)&w->other_session, sizeof sheet_l) == 0);
    REFUSES(SOFRETU_MISUSE_OVERLAP, sofretu_session_open(&w->other_session, &w->sheet, &w->store, &w->run));
    MUST(sofretu_sheet_load(&w->sheet, w->sheet_bytes, sizeof sheet_l) == 0);
    MUST(sofretu_store_lend(&w->store, (uint8_t *)(&w->session + 1) - 1, SOFRETU_ENTRY, 0) == 0);
    REFUSES(SOFRETU_MISUSE_OVERLAP, sofretu_session_open(&w->session, &w->sheet, &w->store, &w->run));
    MUST(sofretu_store_lend(&w->store, w->store_bytes, STORE, 0) == 0);
    REFUSES(SOFRETU_MISUSE_OVERLAP, sofretu_session_open(&w->session, &w->sheet, &w->store, INSIDE(sofretu_run, &w->session, 16)));
    MUST(sofretu_store_lend(INSIDE(sofretu_store, &w->session, 24), w->store_bytes, STORE, 0) == 0);
    REFUSES(SOFRETU_MISUSE_OVERLAP, sofretu_session_open(&w->session, &w->sheet, INSIDE(sofretu_store, &w->session, 24), &w->run));
    memset(&w->session, 0, sizeof w->session);
    /* a store and: the run, its sheet, the sheet's bytes (with its own bytes it is refused before) */
    MUST(sofretu_store_lend(INSIDE(sofretu_store, &w->run, 64), w->store_bytes, STORE, 0) == 0);
    REFUSES(SOFRETU_MISUSE_OVERLAP, sofretu_session_open(&w->session, &w->sheet, INSIDE(sofretu_store, &w->run, 64), &w->run));
    MUST(sofretu_store_lend(INSIDE(sofretu_store, &w->sheet, 1024), w->store_bytes, STORE, 0) == 0);
    REFUSES(SOFRETU_MISUSE_OVERLAP, sofretu_session_open(&w->session, &w->sheet, INSIDE(sofretu_store, &w->sheet, 1024), &w->run));
    memcpy(spare, sheet_l, sizeof sheet_l);
    MUST(sofretu_sheet_load(&w->sheet, spare, sizeof sheet_l) == 0);
    MUST(sofretu_store_lend(INSIDE(sofretu_store, spare, 96), w->store_bytes, STORE, 0) == 0);
    REFUSES(SOFRETU_MISUSE_OVERLAP, sofretu_session_open(&w->session, &w->sheet, INSIDE(sofretu_store, spare, 96), &w->run));
    /* a store's bytes and: the handle of the store, the run, the sheet, the sheet's bytes */
    MUST(sofretu_sheet_load(&w->sheet, w->sheet_bytes, sizeof sheet_l) == 0);
    w->store.bytes = (uint8_t *)&w->store;
    w->store.len = SOFRETU_ENTRY;
    REFUSES(SOFRETU_MISUSE_OVERLAP, sofretu_session_open(&w->session, &w->sheet, &w->store, &w->run));
    MUST(sofretu_store_lend(&store, (uint8_t *)&w->run, STORE, 0) == 0);
    REFUSES(SOFRETU_MISUSE_OVERLAP, sofretu_session_open(&w->session, &w->sheet, &store, &w->run));
    MUST(sofretu_store_lend(&store, (uint8_t *)&w->sheet - 1, SOFRETU_ENTRY, 0) == 0);
    REFUSES(SOFRETU_MISUSE_OVERLAP, sofretu_session_open(&w->session, &w->sheet, &store, &w->run));
    MUST(sofretu_store_lend(&store, w->sheet_bytes + sizeof sheet_l - 1, SOFRETU_ENTRY, 0) == 0);
    REFUSES(SOFRETU_MISUSE_OVERLAP, sofretu_session_open(&w->session, &w->sheet, &store, &w->run));
    /* a run and: the sheet, the sheet's bytes */
    MUST(sofretu_store_lend(&store, w->store_bytes, STORE, 0) == 0);
    REFUSES(SOFRETU_MISUSE_OVERLAP, sofretu_session_open(&w->session, &w->sheet, &store, INSIDE(sofretu_run, &w->sheet, 8)));
    memcpy(&w->run, sheet_l, sizeof sheet_l);
    MUST(sofretu_sheet_load(&w->sheet, (const uint8_t *)&w->run, sizeof sheet_l) == 0);
    REFUSES(SOFRETU_MISUSE_OVERLAP, sofretu_session_open(&w->session, &w->sheet, &store, &w->run));
    /* Memory that only touches does not overlap: the store begins where the sheet's bytes end. */
    memcpy(spare, sheet_l, sizeof sheet_l);
    MUST(sofretu_sheet_load(&w->sheet, spare, sizeof sheet_l) == 0);
    MUST(sofretu_store_lend(&w->store, spare + sizeof sheet_l, STORE, 0) == 0);
    MUST(sofretu_session_open(&w->session, &w->sheet, &w->store, &w->run) == 0);
    answers(0);
}

static void asking_what_is_not_open(void) {
    load();
    ASK_REFUSES(SOFRETU_MISUSE_NULL, 0, NULL, w->question, 6);
    ASK_REFUSES(SOFRETU_MISUSE_ALIGNMENT, 0, INSIDE(sofretu_session, &w->session, 4), w->question, 6);
    ASK_REFUSES(SOFRETU_MISUSE_NOT_OPEN, 0, &w->session, w->question, 6);
    memset(&w->session, FILL, sizeof w->session);
    ASK_REFUSES(SOFRETU_MISUSE_NOT_OPEN, 0, &w->session, w->question, 6);
    MUST(sofretu_session_open(&w->session, &w->sheet, &w->store, &w->run) == 0);
    w->other_session = w->session;
    ASK_REFUSES(SOFRETU_MISUSE_NOT_OPEN, 0, &w->other_session, w->question, 6);
    answers(0);
    MUST(sofretu_session_close(&w->session) == 0);
    ASK_REFUSES(SOFRETU_MISUSE_NOT_OPEN, 0, &w->session, w->question, 6);
    /* The store is given back with what it keeps. */
    MUST(w->store.bytes == w->store_bytes && w->store.len == STORE && w->store.kept == 5);
    REFUSES(SOFRETU_MISUSE_NOT_OPEN, sofretu_session_close(&w->session));
    REFUSES(SOFRETU_MISUSE_NOT_OPEN, sofretu_session_close(&w->other_session));
    REFUSES(SOFRETU_MISUSE_NULL, sofretu_session_close(NULL));
    REFUSES(SOFRETU_MISUSE_ALIGNMENT, sofretu_session_close(INSIDE(sofretu_session, &w->session, 1)));
}

static void asking_after_changes(void) {
    uint8_t elsewhere[STORE];
    open_session();
    answers(0);
    MUST(sofretu_sheet_load(&w->sheet, w->sheet_bytes, sizeof sheet_l) == 0);
    ASK_REFUSES(SOFRETU_MISUSE_SHEET_CHANGED, 5, &w->session, w->question, 6);
    MUST(sofretu_session_open(&w->session, &w->sheet, &w->store, &w->run) == 0);
    answers(1);
    MUST(sofretu_sheet_load(&w->sheet, w->sheet_bytes, 1) == SOFRETU_COMMAND);
    ASK_REFUSES(SOFRETU_MISUSE_SHEET_CHANGED, 5, &w->session, w->question, 6);

    open_session();
    answers(0);
    MUST(sofretu_sheet_unload(&w->sheet) == 0);
    ASK_REFUSES(SOFRETU_MISUSE_SHEET_CHANGED, 5, &w->session, w->question, 6);
    MUST(sofretu_sheet_load(&w->sheet, w->sheet_bytes, sizeof sheet_l) == 0);
    ASK_REFUSES(SOFRETU_MISUSE_SHEET_CHANGED, 5, &w->session, w->question, 6);
    MUST(sofretu_session_close(&w->session) == 0);

    open_session();
    w->sheet.bytes++;
    ASK_REFUSES(SOFRETU_MISUSE_SHEET_CHANGED, 0, &w->session, w->question, 6);
    w->sheet.bytes--;
    w->sheet.len--;
    ASK_REFUSES(SOFRETU_MISUSE_SHEET_CHANGED, 0, &w->session, w->question, 6);
    w->sheet.len++;
    answers(0);

    /* What is changed back is as it was. */
    memcpy(elsewhere, w->store_bytes, STORE);
    w->store.bytes = elsewhere;
    ASK_REFUSES(SOFRETU_MISUSE_STORE_CHANGED, 5, &w->session, w->question, 6);
    MUST(memcmp(elsewhere, w->store_bytes, STORE) == 0);
    w->store.bytes = w->store_bytes;
    w->store.len = STORE - SOFRETU_ENTRY;
    ASK_REFUSES(SOFRETU_MISUSE_STORE_CHANGED, 5, &w->session, w->question, 6);
    w->store.len = STORE;
    w->store.kept = 4;
    ASK_REFUSES(SOFRETU_MISUSE_STORE_CHANGED, 4, &w->session, w->question, 6);
    w->store.kept = 6;
    ASK_REFUSES(SOFRETU_MISUSE_STORE_CHANGED, 6, &w->session, w->question, 6);
    w->store.kept = 5;
    answers(1);
    answers(2);

    /* A second session that keeps a figure in the store shuts out the first. They share a run. */
    MUST(sofretu_session_open(&w->other_session, &w->sheet, &w->store, &w->run) == 0);
    MUST(sofretu_session_ask(&w->other_session, questions_l[3].bytes, questions_l[3].len, BUDGET, &w->answer) == SOFRETU_NULL);
    MUST(w->store.kept == 8);
    ASK_REFUSES(SOFRETU_MISUSE_STORE_CHANGED, 8, &w->session, w->question, 6);
}

static void asking_with_bad_memory(void) {
    open_session();
    REFUSES(SOFRETU_MISUSE_NULL, sofretu_session_ask(&w->session, w->question, 6, BUDGET, NULL));
    for (int offset = 1; offset < 8; offset++) {
        REFUSES(SOFRETU_MISUSE_ALIGNMENT, sofretu_session_ask(&w->session, w->question, 6, BUDGET, INSIDE(sofretu_answer, &w->answer, offset)));
    }
    ASK_REFUSES(SOFRETU_MISUSE_NULL, 0, &w->session, NULL, 6);
    /* a question and: the session, the store's handle and bytes, the run, the sheet's handle */
    ASK_REFUSES(SOFRETU_MISUSE_OVERLAP, 0, &w->session, (const uint8_t *)&w->session, 6);
    ASK_REFUSES(SOFRETU_MISUSE_OVERLAP, 0, &w->session, (const uint8_t *)(&w->session + 1) - 1, 6);
    ASK_REFUSES(SOFRETU_MISUSE_OVERLAP, 0, &w->session, (const uint8_t *)&w->store - 5, 6);
    ASK_REFUSES(SOFRETU_MISUSE_OVERLAP, 0, &w->session, w->store_bytes, 6);
    ASK_REFUSES(SOFRETU_MISUSE_OVERLAP, 0, &w->session, w->store_bytes + STORE - 1, 6);
    ASK_REFUSES(SOFRETU_MISUSE_OVERLAP, 0, &w->session, (const uint8_t *)&w->run, 6);
    ASK_REFUSES(SOFRETU_MISUSE_OVERLAP, 0, &w->session, (const uint8_t *)(&w->sheet + 1) - 6, 6);
    /* an answer, which is not written then, and: the session, the store's handle and bytes, the run, the sheet's handle and bytes, the question */
    REFUSES(SOFRETU_MISUSE_OVERLAP, sofretu_session_ask(&w->session, w->question, 6, BUDGET, INSIDE(sofretu_answer, &w->session, 8)));
    REFUSES(SOFRETU_MISUSE_OVERLAP, sofretu_session_ask(&w->session, w->question, 6, BUDGET, INSIDE(sofretu_answer, &w->run, 0)));
    REFUSES(SOFRETU_MISUSE_OVERLAP, sofretu_session_ask(&w->session, w->question, 6, BUDGET, INSIDE(sofretu_answer, &w->sheet, 800)));
    REFUSES(SOFRETU_MISUSE_OVERLAP, sofretu_session_ask(&w->session, w->question, 6, BUDGET, INSIDE(sofretu_answer, &w->store, 16)));
    REFUSES(SOFRETU_MISUSE_OVERLAP, sofretu_session_ask(&w->session, (const uint8_t *)(&w->answer + 1) - 1, 6, BUDGET, &w->answer));
    REFUSES(SOFRETU_MISUSE_OVERLAP, sofretu_session_ask(&w->session, (const uint8_t *)&w->answer - 5, 6, BUDGET, &w->answer));
    REFUSES(SOFRETU_MISUSE_OVERLAP,
            sofretu_session_ask(&w->session, w->question, 6, BUDGET, INSIDE(sofretu_answer, w->store_bytes, 8 - (uintptr_t)w->store_bytes % 8)));
    memcpy(w->spare, sheet_l, sizeof sheet_l);
    MUST(sofretu_sheet_load(&w->sheet, (const uint8_t *)w->spare, sizeof sheet_l) == 0);
    MUST(sofretu_session_open(&w->session, &w->sheet, &w->store, &w->run) == 0);
    REFUSES(SOFRETU_MISUSE_OVERLAP, sofretu_session_ask(&w->session, w->question, 6, BUDGET, INSIDE(sofretu_answer, w->spare, 96)));
    MUST(sofretu_session_ask(&w->session, w->question, 6, 0, INSIDE(sofretu_answer, w->spare, 104)) == SOFRETU_SPENT);
    open_session();
    /* No question, NULL or not, is one of no bytes, and a part of the sheet may be one: here own of this node, which only a rule can ask. */
    MUST(sofretu_session_ask(&w->session, NULL, 0, BUDGET, &w->answer) == SOFRETU_QUESTION_FORM && w->answer.kept == 0);
    MUST(sofretu_session_ask(&w->session, w->store_bytes + 1, 0, BUDGET, &w->answer) == SOFRETU_QUESTION_FORM);
    MUST(sofretu_session_ask(&w->session, w->sheet_bytes + 68, 4, BUDGET, &w->answer) == SOFRETU_QUESTION_FORM);
    MUST(sofretu_session_ask(&w->session, w->question, 6, SOFRETU_MOST_STEPS + 1, &w->answer) == SOFRETU_BUDGET);
    answers(0);
}

static void put(uint64_t number, const uint8_t bytes[SOFRETU_ENTRY]) {
    memcpy(w->store_bytes + number * SOFRETU_ENTRY, bytes, SOFRETU_ENTRY);
}

static int reads(uint64_t number, uint32_t node, uint32_t attribute, uint32_t type, uint32_t parameter, int64_t value) {
    const sofretu_entry *e = &w->entry;
    memset(&w->entry, FILL, sizeof w->entry);
    return sofretu_store_entry(&w->store, number, &w->entry) == 0 && e->node == node && e->attribute == attribute && e->type == type &&
           e->parameter == parameter && e->value == value;
}

static void reading_entries(void) {
    static const uint8_t last_node[SOFRETU_ENTRY] = {0, 0, 0, 3, 0, 0, 0, 0, 0xFF, 3, 0, 0};
    static const uint8_t whole[4][SOFRETU_ENTRY] = {{1, 2, 3, 0, 4, 5, 6, 0x87, 0, 0, 0, 0},
                                                    {0, 0, 31, 1, 0, 0, 0, 0, 1, 0, 0, 0},
                                                    {0, 0, 0, 2, 0, 0, 0, 0, 0xFE, 0xFF, 0xFF, 0xFF},
                                                    {0, 0, 0, 3, 0, 0, 0, 0, 0xFF, 0xFF, 0, 0}};
    static const uint8_t broken[5][SOFRETU_ENTRY] = {{0, 0, 0, 0, 0, 0, 0, 0, 0, 0, 0, 1},
                                                     {0, 0, 0, 1, 0, 0, 0, 0, 2, 0, 0, 0},
                                                     {0, 0, 0, 3, 0, 0, 0, 0, 0, 4, 0, 0},
                                                     {0, 0, 0, 3, 0, 0, 0, 0, 0, 0, 1, 0},
                                                     {0, 0, 0, 4, 0, 0, 0, 0, 0, 0, 0, 0}};
    sofretu_store nowhere = {NULL, SOFRETU_ENTRY, 1};
    start();
    for (uint64_t i = 0; i < 9; i++) {
        put(i, i < 4 ? whole[i] : broken[i - 4]);
    }
    w->store.kept = 9;
    MUST(reads(0, 513, 3, 0, 0x87060504u, 0) && reads(1, 0, 31, 1, 0, 1) && reads(2, 0, 0, 2, 0, -2) && reads(3, 0, 0, 3, 0, 65535));
    put(3, last_node);
    MUST(reads(3, 0, 0, 3, 0, 1023));
    for (uint64_t i = 4; i < 9; i++) {
        REFUSES(SOFRETU_STORE_ENTRY, sofretu_store_entry(&w->store, i, &w->entry));
    }
    REFUSES(SOFRETU_MISUSE_NO_ENTRY, sofretu_store_entry(&w->store, 9, &w->entry));
    REFUSES(SOFRETU_MISUSE_NO_ENTRY, sofretu_store_entry(&w->store, UINT64_MAX, &w->entry));
    w->store.kept = 0;
    REFUSES(SOFRETU_MISUSE_NO_ENTRY, sofretu_store_entry(&w->store, 0, &w->entry));
    w->store.kept = 10;
    REFUSES(SOFRETU_STORE_SHAPE, sofretu_store_entry(&w->store, 0, &w->entry));
    w->store.kept = 1;
    w->store.len = STORE - 1;
    REFUSES(SOFRETU_STORE_SHAPE, sofretu_store_entry(&w->store, 0, &w->entry));
    w->store.len = (SOFRETU_MOST_ENTRIES + 1) * SOFRETU_ENTRY;
    REFUSES(SOFRETU_STORE_SHAPE, sofretu_store_entry(&w->store, 0, &w->entry));
    w->store.len = STORE;
    MUST(reads(0, 513, 3, 0, 0x87060504u, 0));
    REFUSES(SOFRETU_MISUSE_NULL, sofretu_store_entry(NULL, 0, &w->entry));
    REFUSES(SOFRETU_MISUSE_NULL, sofretu_store_entry(&w->store, 0, NULL));
    REFUSES(SOFRETU_MISUSE_NULL, sofretu_store_entry(&nowhere, 0, &w->entry));
    REFUSES(SOFRETU_MISUSE_ALIGNMENT, sofretu_store_entry(INSIDE(sofretu_store, &w->store, 4), 0, &w->entry));
    REFUSES(SOFRETU_MISUSE_ALIGNMENT, sofretu_store_entry(&w->store, 0, INSIDE(sofretu_entry, &w->entry, 4)));
    REFUSES(SOFRETU_MISUSE_OVERLAP, sofretu_store_entry(&w->store, 0, INSIDE(sofretu_entry, &w->store, 8)));
    REFUSES(SOFRETU_MISUSE_OVERLAP, sofretu_store_entry(&w->store, 0, INSIDE(sofretu_entry, w->store_bytes, 8 - (uintptr_t)w->store_bytes % 8)));
}

int main(void) {
    w = (world *)malloc(sizeof *w);
    before = (world *)malloc(sizeof *before);
    MUST(w != NULL && before != NULL);
    sizes();
    loading();
    unloading();
    lending();
    opening();
    opening_with_overlaps();
    asking_what_is_not_open();
    asking_after_changes();
    asking_with_bad_memory();
    reading_entries();
    printf("%d calls\n", tried);
    free(w);
    free(before);
    return 0;
}
