/* A program of two parts that are compiled with headers of different versions, this file with and without OTHER_HEADER. The library is of the version of
 * the first part. Prints what the other part is told when it loads a sheet, opens, asks and closes the first part's session, and unloads its sheet; then
 * what the first part is told when it asks after that. */
#include <stdio.h>

#include "sheet_l.h"
#include "sofretu.h"

enum { TRIALS = 5, BUDGET = 1000 };

void other_part(void *sheet, void *session, sofretu_store *store, void *run, int32_t told[TRIALS]);

#ifdef OTHER_HEADER

static sofretu_sheet own_sheet;

void other_part(void *sheet, void *session, sofretu_store *store, void *run, int32_t told[TRIALS]) {
    sofretu_answer answer;
    told[0] = sofretu_sheet_load(&own_sheet, sheet_l, sizeof sheet_l);
    told[1] = sofretu_session_open((sofretu_session *)session, (sofretu_sheet *)sheet, store, (sofretu_run *)run);
    told[2] = sofretu_session_ask((sofretu_session *)session, questions_l[0].bytes, questions_l[0].len, BUDGET, &answer);
    told[3] = sofretu_session_close((sofretu_session *)session);
    told[4] = sofretu_sheet_unload((sofretu_sheet *)sheet);
}

#else

static sofretu_sheet sheet;
static sofretu_session session;
static sofretu_run run;
static uint8_t memory[SOFRETU_ENTRY * 8];

int main(void) {
    sofretu_store store;
    sofretu_answer answer;
    int32_t told[TRIALS];
    if (sofretu_sheet_load(&sheet, sheet_l, sizeof sheet_l) != 0 || sofretu_store_lend(&store, memory, sizeof memory, 0) != 0 ||
        sofretu_session_open(&session, &sheet, &store, &run) != 0) {
        return 1;
    }
    other_part(&sheet, &session, &store, &run, told);
    for (int i = 0; i < TRIALS; i++) {
        printf("%d ", (int)told[i]);
    }
    printf("%d\n", (int)sofretu_session_ask(&session, questions_l[0].bytes, questions_l[0].len, BUDGET, &answer));
    return 0;
}

#endif
