/* How much stack each call takes. Each is run on a thread of 512 KB whose stack was filled with a pattern, on the arguments that lead it
 * deepest. Prints the call's name and the bytes of the stack that were written over. */
#define _POSIX_C_SOURCE 200809L
#include <pthread.h>
#include <stdint.h>
#include <stdio.h>
#include <stdlib.h>
#include <string.h>

#include "sofretu.h"

enum { STACK = 512 * 1024, PATTERN = 0xA5, LONGEST = 256, BUDGET = 1000 };

/* An attribute that is itself with one more: asked for, it opens 64 forms, in three steps each. */
static const uint8_t chain[] = {0x41, 0,    2,    0x4E, 0, 0x52, 0,    0, 13, 0, 0x22, 0,
                                0x30, 0x21, 0x21, 0x14, 4, 0x31, 0x12, 1, 0,  0, 0,    0x5A};

/* The same attribute with a rule of 256 heads, each of which wants another expression, and with such a forward. */
static uint8_t deep_rule[10 + LONGEST + 1] = {0x41, 0, 2, 0x4E, 0, 0x52, 0, 0, 0, 1};
static uint8_t deep_forward[9 + LONGEST + 1] = {0x41, 0, 2, 0x4E, 0, 0x46, 0, 0, 1};

static const struct {
    const uint8_t *bytes;
    uint64_t len;
} deep[] = {{deep_rule, sizeof deep_rule}, {deep_forward, sizeof deep_forward}};

/* Heads that each want an expression, and what asks for the attribute. */
static uint8_t ifs[LONGEST];
static uint8_t applications[LONGEST];
static uint8_t attributes[LONGEST];
static const uint8_t first[] = {0x22, 0, 0x13, 0, 0, 0x12, 0, 0, 0, 0};

static const struct {
    const uint8_t *bytes;
    uint64_t len;
} questions[] = {
    {ifs, sizeof ifs}, {applications, sizeof applications}, {attributes, sizeof attributes}, {first, sizeof first}};

static uint8_t store[SOFRETU_MOST_ENTRIES * SOFRETU_ENTRY];
static sofretu_checked_sheet checked_sheet;
static sofretu_noted_sheet noted_sheet;
static sofretu_checked_store checked_store;
static sofretu_run run;
static uint64_t found[3];
static uint64_t place;
static int64_t answer[SOFRETU_FIELDS];
static uint64_t tally[SOFRETU_TALLY_ROWS];
static sofretu_sheet loaded;
static sofretu_session session;
static sofretu_store lent;
static sofretu_answer filled;
static sofretu_entry entry;

static void must(int error) {
    if (error != 0) {
        fprintf(stderr, "%s\n", strerror(error));
        exit(1);
    }
}

/* That a call came as far as it is measured for. */
static void must_be(int32_t number, int32_t expected) {
    if (number != expected) {
        fprintf(stderr, "number %d instead of %d\n", (int)number, (int)expected);
        exit(1);
    }
}

#define FOR_EACH_DEEP_SHEET for (size_t d = 0; d < sizeof deep / sizeof deep[0]; d++)
#define FOR_EACH_QUESTION for (size_t q = 0; q < sizeof questions / sizeof questions[0]; q++)

static void *ask(void *unused) {
    FOR_EACH_DEEP_SHEET {
        sofretu_ask(deep[d].bytes, deep[d].len, first, sizeof first, store, sizeof store, 0, BUDGET, answer, tally);
    }
    FOR_EACH_QUESTION {
        sofretu_ask(chain, sizeof chain, questions[q].bytes, questions[q].len, store, sizeof store, 0, BUDGET, answer, tally);
    }
    return unused;
}

static void *ask_in(void *unused) {
    FOR_EACH_DEEP_SHEET {
        sofretu_ask_in(deep[d].bytes, deep[d].len, first, sizeof first, store, sizeof store, 0, BUDGET, &checked_sheet, &noted_sheet, &checked_store,
                       &run, answer, tally);
    }
    FOR_EACH_QUESTION {
        sofretu_ask_in(chain, sizeof chain, questions[q].bytes, questions[q].len, store, sizeof store, 0, BUDGET, &checked_sheet, &noted_sheet,
                       &checked_store, &run, answer, tally);
    }
    return unused;
}

static void *check(void *unused) {
    FOR_EACH_DEEP_SHEET {
        sofretu_check(deep[d].bytes, deep[d].len, first, sizeof first, store, sizeof store, 0, BUDGET, &place);
    }
    FOR_EACH_QUESTION {
        sofretu_check(chain, sizeof chain, questions[q].bytes, questions[q].len, store, sizeof store, 0, BUDGET, &place);
    }
    return unused;
}

/* The sheet that is accepted comes last, for the two calls below. */
static void *check_sheet(void *unused) {
    FOR_EACH_DEEP_SHEET {
        sofretu_check_sheet(deep[d].bytes, deep[d].len, &checked_sheet, &noted_sheet, found);
    }
    sofretu_check_sheet(chain, sizeof chain, &checked_sheet, &noted_sheet, found);
    return unused;
}

static void *check_store(void *unused) {
    sofretu_check_store(chain, sizeof chain, &checked_sheet, store, sizeof store, 0, &checked_store, &place);
    return unused;
}

static void *ask_checked(void *unused) {
    FOR_EACH_QUESTION {
        sofretu_ask_checked(chain, sizeof chain, &checked_sheet, &noted_sheet, questions[q].bytes, questions[q].len, store,
                            sizeof store, 0, BUDGET, &checked_store, &run, answer, tally);
    }
    return unused;
}

static void *version(void *unused) {
    sofretu_version();
    return unused;
}

static void *sheet_load(void *unused) {
    FOR_EACH_DEEP_SHEET {
        sofretu_sheet_load(&loaded, deep[d].bytes, deep[d].len);
    }
    must_be(sofretu_sheet_load(&loaded, chain, sizeof chain), 0);
    return unused;
}

static void *session_open(void *unused) {
    must_be(sofretu_store_lend(&lent, store, sizeof store, 0), 0);
    must_be(sofretu_session_open(&session, &loaded, &lent, &run), 0);
    return unused;
}

/* The last question opens 64 forms, one in the other. */
static void *session_ask(void *unused) {
    FOR_EACH_QUESTION {
        sofretu_session_ask(&session, questions[q].bytes, questions[q].len, BUDGET, &filled);
    }
    must_be(filled.number, SOFRETU_DEPTH);
    return unused;
}

static void *session_close(void *unused) {
    must_be(sofretu_session_close(&session), 0);
    return unused;
}

static void *store_entry(void *unused) {
    static uint8_t one[SOFRETU_ENTRY];
    must_be(sofretu_store_lend(&lent, one, sizeof one, 1), 0);
    must_be(sofretu_store_entry(&lent, 0, &entry), 0);
    return unused;
}

static void *text(void *unused) {
    sofretu_text(filled.number);
    sofretu_cause(filled.number);
    return unused;
}

static void *sheet_unload(void *unused) {
    must_be(sofretu_sheet_unload(&loaded), 0);
    return unused;
}

/* In an order in which each has what it needs. */
static const struct {
    const char *name;
    void *(*call)(void *);
} calls[] = {{"sofretu_ask", ask},
             {"sofretu_ask_in", ask_in},
             {"sofretu_check", check},
             {"sofretu_check_sheet", check_sheet},
             {"sofretu_check_store", check_store},
             {"sofretu_ask_checked", ask_checked},
             {"sofretu_version", version},
             {"sofretu_sheet_load", sheet_load},
             {"sofretu_session_open", session_open},
             {"sofretu_session_ask", session_ask},
             {"sofretu_session_close", session_close},
             {"sofretu_store_entry", store_entry},
             {"sofretu_text", text},
             {"sofretu_sheet_unload", sheet_unload}};

int main(void) {
    memset(deep_rule + 10, 0x20, LONGEST);
    deep_rule[10 + LONGEST] = 0x5A;
    memset(deep_forward + 9, 0x20, LONGEST);
    deep_forward[9 + LONGEST] = 0x5A;
    memset(ifs, 0x20, sizeof ifs);
    memset(applications, 0x21, sizeof applications);
    for (size_t at = 0; at < sizeof attributes; at += 2) {
        attributes[at] = 0x22;
    }
    void *stack;
    must(posix_memalign(&stack, 4096, STACK));
    for (size_t i = 0; i < sizeof calls / sizeof calls[0]; i++) {
        memset(stack, PATTERN, STACK);
        pthread_attr_t attr;
        pthread_t thread;
        must(pthread_attr_init(&attr));
        must(pthread_attr_setstack(&attr, stack, STACK));
        must(pthread_create(&thread, &attr, calls[i].call, NULL));
        must(pthread_join(thread, NULL));
        must(pthread_attr_destroy(&attr));
        size_t untouched = 0;
        while (untouched < STACK && ((uint8_t *)stack)[untouched] == PATTERN) {
            untouched++;
        }
        printf("%s %zu\n", calls[i].name, (size_t)STACK - untouched);
    }
    free(stack);
    return 0;
}
