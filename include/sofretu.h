/* Sofretu, the proved settings engine, for C99 and C++. Include this file and link libsofretu.a (`scripts/build.sh`). scripts/install.sh puts
 * both under a prefix, with a pkg-config file. A question is put so:
 *
 *     static sofretu_sheet sheet;
 *     static sofretu_session session;
 *     static sofretu_run run;
 *     static uint8_t memory[SOFRETU_MOST_ENTRIES * SOFRETU_ENTRY];
 *     sofretu_store store;
 *     sofretu_answer answer;
 *
 *     if (sofretu_sheet_load(&sheet, sheet_bytes, sheet_len) == 0 &&
 *         sofretu_store_lend(&store, memory, sizeof memory, 0) == 0 &&
 *         sofretu_session_open(&session, &sheet, &store, &run) == 0 &&
 *         sofretu_session_ask(&session, question, question_len, SOFRETU_MOST_STEPS, &answer) == 0) {
 *         printf("%lld\n", (long long)answer.value);
 *     }
 *
 * Each of these returns 0, or the number of a stop (above 0), or that of a misuse (below 0). sofretu_text has words for each number.
 *
 * The file has four parts: the numbers, the handles, the raw calls, and what the functions of the handles do, which need not be read. The raw calls
 * are proved. The functions of the handles are plain C over them, and tested. Names that end with an underscore are this file's own. "Document 01"
 * is the paper "Settings sheets evaluated by Saiga".
 */
#ifndef SOFRETU_H
#define SOFRETU_H

#include <stddef.h>
#include <stdint.h>

#ifdef __cplusplus
extern "C" {
#endif

/* ---- Numbers */

/* The version of this header: major * 10000 + minor * 100 + patch. sofretu_version() is that of the library. Handles and answers may grow from
 * version to version, so a program is compiled anew, as a whole, with the header of the library that it links. sofretu_sheet_load and
 * sofretu_session_open refuse a library of another version, and every function refuses a handle that was loaded or opened by a header of another
 * version. */
#define SOFRETU_VERSION 200
#define SOFRETU_VERSION_TEXT "0.2.0"

/* The greatest budget of counted steps. */
#define SOFRETU_MOST_STEPS 1000000

/* A store's entry has 12 bytes: node (2), attribute (1), type (1), parameter (4), value (4), little-endian. `type` is that of the value: 0 Unit,
 * 1 Bool, 2 Int, 3 Node. In four bytes a Unit is 0, a Bool 0 or 1, an Int in two's complement, a Node its number, or 65535 for null; the
 * parameter's type is the sheet's affair. A store has room for 0 to 1,024 entries, and its length is 12 times that; `kept` of them, the
 * first ones, are in use. Entries that are lent stay as they are, byte for byte. */
#define SOFRETU_ENTRY 12
#define SOFRETU_MOST_ENTRIES 1024

/* The rows of a tally, which tells where an answer's counted steps went: attribute a has row a, and the two rows after those of the 32
 * attributes are named here. The rows add up to the answer's steps: under stops 14 to 17 and 20 to those before the stop, under stops 1 to 13 and
 * misuses to 0. */
#define SOFRETU_TALLY_ROWS 34

enum {
    SOFRETU_APPLICATIONS = 32, /* a function was given an argument: a function of two arguments makes two such steps */
    SOFRETU_CONDITIONS = 33    /* a branch of an IF was chosen */
};

/* The stops, by who causes them. */
enum {
    /* the sheet's author */
    SOFRETU_SHEET_LENGTH = 1,      /* over 65,536 bytes */
    SOFRETU_COMMAND = 2,           /* unknown, misplaced or cut command, no end command, bytes after it */
    SOFRETU_TOO_MANY = 3,          /* a 33rd attribute or a 1,025th node */
    SOFRETU_OPERAND = 4,           /* a command's operand outside its values or undeclared */
    SOFRETU_SECOND_DEFINITION = 5, /* a second figure for a pair, a second rule for a kind and attribute, or a second forward for a kind */
    SOFRETU_RULE_FORM = 6,         /* the length or expression of a rule or forward is not of the form, or a forward uses the parameter */
    SOFRETU_RULE_TYPE = 7,         /* a rule is not of its attribute's type, or a forward is no Node */
    SOFRETU_NO_DEFINITION = 8,     /* a pair has neither figure nor rule, and its kind no forward */
    /* the program that lends the store */
    SOFRETU_STORE_SHAPE = 9,       /* length no multiple of 12 or over 12,288, or kept above the capacity */
    SOFRETU_STORE_ENTRY = 10,      /* a kept entry is none of this sheet's, its type not the attribute's, or repeats an occurrence */
    /* the person who puts the question */
    SOFRETU_BUDGET = 11,           /* above 1,000,000 */
    SOFRETU_QUESTION_FORM = 12,    /* not an expression of 1 to 256 bytes */
    SOFRETU_QUESTION_TYPE = 13,    /* not of base type */
    /* the run */
    SOFRETU_NULL = 14,             /* an attribute of null was due */
    SOFRETU_SPENT = 15,            /* a counted step was due with the whole budget used */
    SOFRETU_DEPTH = 16,            /* an attribute that is not kept was due inside 64 open ones */
    SOFRETU_OVERFLOW = 17,         /* a sum or difference was due that lies outside Int, -2147483648 to 2147483647 */
    SOFRETU_CIRCLE = 20            /* an attribute that is not kept was due inside itself: the same one of the same node with the same parameter */
};

/* The misuses: what the functions of the handles refuse in the program that calls them. */
enum {
    SOFRETU_MISUSE_VERSION = -1,       /* this header and the library are of different versions */
    SOFRETU_MISUSE_NULL = -2,          /* a handle or an answer is NULL, or bytes are NULL and their length is not 0 */
    SOFRETU_MISUSE_ALIGNMENT = -3,     /* a handle or an answer is not aligned to 8 bytes */
    SOFRETU_MISUSE_OVERLAP = -4,       /* memory that is lent overlaps other memory of the call */
    SOFRETU_MISUSE_NOT_LOADED = -5,    /* the sheet was never loaded, was refused, or is unloaded */
    SOFRETU_MISUSE_NOT_OPEN = -6,      /* the session was never opened, was refused, or is closed */
    SOFRETU_MISUSE_SHEET_CHANGED = -7, /* since the session was opened its sheet was loaded anew or unloaded */
    SOFRETU_MISUSE_STORE_CHANGED = -8, /* since the session's last call its store was given other bytes, another length or another kept number */
    SOFRETU_MISUSE_NO_ENTRY = -9       /* the store keeps no entry of this number */
};

/* ---- Handles
 *
 * A caller makes the handles, reads their fields, and leaves the writing to the functions below. sofretu_sheet has 130 KB, sofretu_run 80 KB and
 * sofretu_session 19 KB: they belong in static storage, or on the heap by calloc. Both give them the zeros that they want before their first use. A
 * handle stays at its address: a copy of it counts as not loaded or not open.
 *
 *   Threads    A session, its store and its run serve one thread at a time. A loaded sheet may serve any number of sessions on any threads, while
 *              nobody loads it anew or unloads it. A run may serve any number of sessions that are not asked at the same time.
 *   Alignment  Handles, answers and entries are aligned to 8 bytes, as their types ask. Bytes of sheets, questions and stores may stand anywhere.
 *   Overlap    Nothing overlaps, but that a question may be a part of the sheet's bytes.
 *   Stack      128 KB suffice for each of these functions.
 *
 * What breaks these rules is refused as a misuse, as far as it can be seen, and then nothing is written but the answer. It cannot be seen that a
 * length is greater than what is there, that memory is gone on which a loaded sheet or an open session stands, or that somebody else has written to
 * the bytes of a loaded sheet or of the store of an open session. After that an answer has no meaning, and the call may read or write anywhere.
 */

/* Scratch: of a checked sheet, of what is noted of it, of a checked store, and of a run. What it holds is the library's affair. A run reads words of
 * its sofretu_run that it has not written, and any values will do; so give it values once, when it is made, and never again. Memory that was never
 * written has none by C's rules, and tools like valgrind tell of it. The other three need no values. */
#define SOFRETU_SHEET_WORDS 33298
#define SOFRETU_SHEET_NOTES 65536
#define SOFRETU_STORE_WORDS 9216
#define SOFRETU_RUN_WORDS 10176

typedef struct {
    uint16_t words[SOFRETU_SHEET_WORDS];
} sofretu_checked_sheet;

typedef struct {
    uint8_t notes[SOFRETU_SHEET_NOTES];
} sofretu_noted_sheet;

typedef struct {
    uint16_t words[SOFRETU_STORE_WORDS];
} sofretu_checked_store;

typedef struct {
    uint64_t words[SOFRETU_RUN_WORDS];
} sofretu_run;

/* A sheet that was checked. */
typedef struct {
    uint64_t state_; /* the first field in every version */
    uint64_t loads_;
    const uint8_t *bytes;
    uint64_t len;
    uint64_t attributes; /* how many it declares; 0 if it was refused */
    uint64_t nodes;      /* the same of nodes */
    uint64_t place;      /* of the stop that refused it: SOFRETU_PLACE below says of what; else 0 */
    sofretu_checked_sheet checked_;
    sofretu_noted_sheet noted_;
} sofretu_sheet;

/* Bytes that keep figures, and how many entries of them are kept. */
typedef struct {
    uint8_t *bytes;
    uint64_t len;
    uint64_t kept;
} sofretu_store;

/* A sheet and a store that was checked for it. */
typedef struct {
    uint64_t state_; /* the first field in every version */
    const sofretu_sheet *sheet;
    sofretu_store *store;
    sofretu_run *run;
    uint64_t place; /* of the stop that refused the store: for stop 10 the entry's number; else 0 */
    uint64_t loads_;
    const uint8_t *sheet_bytes_;
    uint64_t sheet_len_;
    sofretu_store left_;
    sofretu_checked_store checked_;
} sofretu_session;

/* The answer to a question. */
typedef struct {
    int32_t number; /* 0 for a value, else that of the stop or the misuse */
    uint32_t type;  /* 0 Unit, 1 Bool, 2 Int, 3 Node; 0 where there is no value */
    int64_t value;  /* Unit 0; Bool 0 or 1; Int as it is; Node its number, or 65535 for null; 0 where there is no value */
    uint64_t place; /* 0: the stops that have a place are those of sheets and stores, which are found before a question is put */
    uint64_t steps; /* the counted steps */
    uint64_t kept;  /* the number kept afterwards; under a misuse as it stands in the store, or 0 if the session is not open */
    uint64_t tally[SOFRETU_TALLY_ROWS];
} sofretu_answer;

/* A kept figure. */
typedef struct {
    uint32_t node;
    uint32_t attribute;
    uint32_t type;      /* of the value, as in an answer */
    uint32_t parameter; /* its four bytes as a number: only the sheet tells its type */
    int64_t value;      /* as in an answer */
} sofretu_entry;

/* Checks a sheet, once for all questions to it: 0, or stop 1 to 8 with sheet->place, and then it is not loaded. The bytes stay as and where they are
 * while the sheet is loaded. A sheet may be loaded anew; the sessions that were opened with it before are refused from then on. */
static inline int32_t sofretu_sheet_load(sofretu_sheet *sheet, const uint8_t *bytes, uint64_t len);

/* Gives the bytes of a sheet back to the caller. The sessions that were opened with it are refused from then on. */
static inline int32_t sofretu_sheet_unload(sofretu_sheet *sheet);

/* Makes a store of some bytes. Its first `kept` entries are in use: 0 of a new store, else those of a dump, which is the first
 * kept * SOFRETU_ENTRY bytes of an earlier store. They are checked when a session is opened. But a store belongs to one sheet: entries that were kept
 * for another may pass the check and are wrong then, so a new sheet wants a store with kept 0. */
static inline int32_t sofretu_store_lend(sofretu_store *store, uint8_t *bytes, uint64_t len, uint64_t kept);

/* Reads entry `number` of a store, from 0 to kept - 1, without a sheet: 0, or stop 9 of a store with a wrong shape, or stop 10 of an entry that is no
 * sheet's because its bytes are no value of its type. Under any number but 0 `entry` stays as it was. */
static inline int32_t sofretu_store_entry(const sofretu_store *store, uint64_t number, sofretu_entry *entry);

/* Checks a store for a loaded sheet: 0, or stop 9 or 10 with session->place, and then the session is not open. Sheet, store and run stay where they
 * are until it is closed, and nobody else writes to the store. A session may be opened anew, closed or not, with any sheet and store: that clears
 * nothing and costs the checks alone. */
static inline int32_t sofretu_session_open(sofretu_session *session, const sofretu_sheet *sheet, sofretu_store *store, sofretu_run *run);

/* Puts a question, which may take `budget` counted steps. Fills the answer, unless it overlaps other memory, and returns its number: 0, or stop 11
 * to 17 or 20. The store's kept number is the answer's from then on. */
static inline int32_t sofretu_session_ask(sofretu_session *session, const uint8_t *question, uint64_t len, uint64_t budget, sofretu_answer *answer);

/* Gives the store of a session back to the caller, with what it keeps. */
static inline int32_t sofretu_session_close(sofretu_session *session);

/* What a number says, in words, and who causes it. Numbers without a meaning have words that say so. */
static inline const char *sofretu_text(int32_t number);
static inline const char *sofretu_cause(int32_t number);

/* ---- Raw calls
 *
 * The proved functions, under the handles. A sheet, a question and a store are bytes, each a pointer and a length. Whatever the bytes are, every call
 * ends, reads nothing outside what it was given, and writes nothing but what is lent to it without `const`. Nothing is kept between calls and no
 * system call is made; calls that write different memory can run at the same time.
 *
 * Of every call it is required that
 *   - each pointer leads to as many bytes or numbers as its length or its array says (of length 0 it may be any pointer);
 *   - scratch, answer, tally, place and found are aligned as their types ask; bytes may stand anywhere;
 *   - what is written (store, scratch, answer, tally, place, found) overlaps nothing else that the call is given;
 *   - the thread has the stack: 512 KB suffice for sofretu_ask and sofretu_check, which have their scratch on it, and 128 KB for the others.
 * One call, sofretu_ask_checked, requires more, which is said with it. Scratch need not be cleared: a call asks nothing of what it holds but where it
 * says so. A call that takes a `tally` writes all its rows, whatever they held.
 */

/* The version of the library, as SOFRETU_VERSION has it. */
uint32_t sofretu_version(void);

/* The numbers of an answer, and its fields. */
#define SOFRETU_FIELDS 6

enum {
    SOFRETU_NUMBER, /* 0 for a value, else the stop's number */
    SOFRETU_PLACE,  /* stops 2 to 7: the offset of the faulty command; 8: node * 32 + attribute, of several pairs the one with the lowest attribute,
                     * and among those the lowest node; 10: the entry's number; else 0 */
    SOFRETU_TYPE,   /* 0 Unit, 1 Bool, 2 Int, 3 Node; 0 under any stop */
    SOFRETU_VALUE,  /* Unit 0; Bool 0 or 1; Int as it is; Node its number, or 65535 for null; 0 under any stop */
    SOFRETU_STEPS,  /* the counted steps; 0 under stops 1 to 13 */
    SOFRETU_KEPT    /* the number kept afterwards; under stops 1 to 13 as lent (in two's complement if above 2^63 - 1) */
};

/* One question with all its checks. Under stops 1 to 13 the store stays as it was lent. It makes its scratch on its stack and clears it, some 230 KB:
 * for a small sheet that takes longer than all the rest. sofretu_ask_in does the same in the caller's scratch, which need not be cleared. */
void sofretu_ask(const uint8_t *sheet, uint64_t sheet_len,
                 const uint8_t *question, uint64_t question_len,
                 uint8_t *store, uint64_t store_len, uint64_t kept,
                 uint64_t budget,
                 int64_t answer[SOFRETU_FIELDS], uint64_t tally[SOFRETU_TALLY_ROWS]);

/* The same with lent scratch. Nothing is asked of what the scratch holds. Afterwards `checked_sheet` and `noted_sheet` are those of an accepted
 * sheet, as sofretu_check_sheet leaves them, and free of a refused one; `checked_store` is that of the store that is left, if sheet and store were
 * accepted, and else free; `run` is as lent under stops 1 to 13, and else free. */
void sofretu_ask_in(const uint8_t *sheet, uint64_t sheet_len,
                    const uint8_t *question, uint64_t question_len,
                    uint8_t *store, uint64_t store_len, uint64_t kept,
                    uint64_t budget,
                    sofretu_checked_sheet *checked_sheet, sofretu_noted_sheet *noted_sheet,
                    sofretu_checked_store *checked_store, sofretu_run *run,
                    int64_t answer[SOFRETU_FIELDS], uint64_t tally[SOFRETU_TALLY_ROWS]);

/* The check of a sheet, once for many questions: 0, or the stop's number, 1 to 8. `found` is place, attributes, nodes: the place is 0 of
 * an accepted sheet, the other two are 0 of a refused one. Fills `checked_sheet` and `noted_sheet`, which are free afterwards of a refused
 * sheet. */
uint32_t sofretu_check_sheet(const uint8_t *sheet, uint64_t sheet_len,
                             sofretu_checked_sheet *checked_sheet, sofretu_noted_sheet *noted_sheet, uint64_t found[3]);

/* The check of a store, for a sheet that was accepted: 0, 9 or 10, with its place. `checked_sheet` is as sofretu_check_sheet left it when it accepted
 * these sheet bytes. Fills `checked_store`, which is free afterwards of a refused store. Of any other `checked_sheet` the call answers as for a sheet
 * of as many nodes and attributes as that says, the attributes being those that stand whole in the sheet's first bytes, three bytes to each: result
 * type and parameter type are the second and the third (0 Unit, 1 Bool, 2 Int, else Node). */
uint32_t sofretu_check_store(const uint8_t *sheet, uint64_t sheet_len,
                             const sofretu_checked_sheet *checked_sheet,
                             const uint8_t *store, uint64_t store_len, uint64_t kept,
                             sofretu_checked_store *checked_store, uint64_t *place);

/* A question to a checked sheet and a checked store: stops 11 to 17 and 20 are left. The number kept for the next question is the answer's.
 * REQUIRES: `checked_sheet` and `noted_sheet` as sofretu_check_sheet left them when it accepted these sheet bytes; `checked_store` as
 * sofretu_check_store, when it accepted these store bytes with this `kept`, or an earlier call of this function left it.
 * With anything else the call has no meaning, and may read or write anywhere. Nothing is asked of `run`, which is as lent under stops 11 to 13 and
 * else free. */
void sofretu_ask_checked(const uint8_t *sheet, uint64_t sheet_len,
                         const sofretu_checked_sheet *checked_sheet, const sofretu_noted_sheet *noted_sheet,
                         const uint8_t *question, uint64_t question_len,
                         uint8_t *store, uint64_t store_len, uint64_t kept,
                         uint64_t budget,
                         sofretu_checked_store *checked_store, sofretu_run *run,
                         int64_t answer[SOFRETU_FIELDS], uint64_t tally[SOFRETU_TALLY_ROWS]);

/* The first of stops 1 to 13 that holds of a call's arguments, with its place; or 0. */
uint32_t sofretu_check(const uint8_t *sheet, uint64_t sheet_len,
                       const uint8_t *question, uint64_t question_len,
                       const uint8_t *store, uint64_t store_len, uint64_t kept,
                       uint64_t budget, uint64_t *place);

/* ---- What the functions of the handles do */

/* The state of a handle that is loaded or open tells its kind, its address and this header's version: zeros, chance bytes and copies do not. */
static inline uint64_t sofretu_loaded_state_(const sofretu_sheet *sheet) {
    return ((uint64_t)0x50F2E705u << 32 | 0xB1A00000u) + SOFRETU_VERSION + (uint64_t)(uintptr_t)sheet;
}

static inline uint64_t sofretu_open_state_(const sofretu_session *session) {
    return ((uint64_t)0x50F2E705u << 32 | 0xE5500000u) + SOFRETU_VERSION + (uint64_t)(uintptr_t)session;
}

/* 0, or what is wrong with a handle, an answer or an entry before it is looked at. */
static inline int32_t sofretu_there_(const void *handle) {
    if (handle == NULL) {
        return SOFRETU_MISUSE_NULL;
    }
    return (uintptr_t)handle % 8 == 0 ? 0 : SOFRETU_MISUSE_ALIGNMENT;
}

static inline int32_t sofretu_bytes_there_(const uint8_t *bytes, uint64_t len) {
    return bytes == NULL && len != 0 ? SOFRETU_MISUSE_NULL : 0;
}

static inline int32_t sofretu_loaded_(const sofretu_sheet *sheet) {
    int32_t number = sofretu_there_(sheet);
    if (number == 0 && sheet->state_ != sofretu_loaded_state_(sheet)) {
        number = SOFRETU_MISUSE_NOT_LOADED;
    }
    return number;
}

static inline int32_t sofretu_opened_(const sofretu_session *session) {
    int32_t number = sofretu_there_(session);
    if (number == 0 && session->state_ != sofretu_open_state_(session)) {
        number = SOFRETU_MISUSE_NOT_OPEN;
    }
    return number;
}

static inline int sofretu_overlap_(const void *a, uint64_t a_len, const void *b, uint64_t b_len) {
    uint64_t at_a = (uint64_t)(uintptr_t)a;
    uint64_t at_b = (uint64_t)(uintptr_t)b;
    return a_len != 0 && b_len != 0 && (at_a <= at_b ? at_b - at_a < a_len : at_a - at_b < b_len);
}

/* Whether some memory overlaps a session's handles or the bytes of its store. */
static inline int sofretu_meets_(const void *at, uint64_t len, const sofretu_session *session) {
    return sofretu_overlap_(at, len, session, sizeof *session) || sofretu_overlap_(at, len, session->sheet, sizeof *session->sheet) ||
           sofretu_overlap_(at, len, session->store, sizeof *session->store) || sofretu_overlap_(at, len, session->run, sizeof *session->run) ||
           sofretu_overlap_(at, len, session->left_.bytes, session->left_.len);
}

static inline int32_t sofretu_sheet_load(sofretu_sheet *sheet, const uint8_t *bytes, uint64_t len) {
    uint64_t found[3];
    uint32_t stop;
    int32_t number = sofretu_version() == SOFRETU_VERSION ? 0 : SOFRETU_MISUSE_VERSION;
    if (number == 0) {
        number = sofretu_there_(sheet);
    }
    if (number == 0) {
        number = sofretu_bytes_there_(bytes, len);
    }
    if (number == 0 && sofretu_overlap_(sheet, sizeof *sheet, bytes, len)) {
        number = SOFRETU_MISUSE_OVERLAP;
    }
    if (number != 0) {
        return number;
    }
    stop = sofretu_check_sheet(bytes, len, &sheet->checked_, &sheet->noted_, found);
    sheet->state_ = stop == 0 ? sofretu_loaded_state_(sheet) : 0;
    sheet->loads_++;
    sheet->bytes = bytes;
    sheet->len = len;
    sheet->place = found[0];
    sheet->attributes = found[1];
    sheet->nodes = found[2];
    return (int32_t)stop;
}

static inline int32_t sofretu_sheet_unload(sofretu_sheet *sheet) {
    int32_t number = sofretu_loaded_(sheet);
    if (number == 0) {
        sheet->state_ = 0;
    }
    return number;
}

static inline int32_t sofretu_store_lend(sofretu_store *store, uint8_t *bytes, uint64_t len, uint64_t kept) {
    int32_t number = sofretu_there_(store);
    if (number == 0) {
        number = sofretu_bytes_there_(bytes, len);
    }
    if (number == 0 && sofretu_overlap_(store, sizeof *store, bytes, len)) {
        number = SOFRETU_MISUSE_OVERLAP;
    }
    if (number == 0) {
        store->bytes = bytes;
        store->len = len;
        store->kept = kept;
    }
    return number;
}

static inline uint32_t sofretu_four_(const uint8_t *bytes) {
    return (uint32_t)bytes[0] | (uint32_t)bytes[1] << 8 | (uint32_t)bytes[2] << 16 | (uint32_t)bytes[3] << 24;
}

/* Whether four bytes are a value of a type on some sheet. */
static inline int sofretu_is_value_(uint32_t type, uint32_t four) {
    switch (type) {
    case 0:
        return four == 0;
    case 1:
        return four <= 1;
    case 2:
        return 1;
    case 3:
        return four < 1024 || four == 65535;
    default:
        return 0;
    }
}

static inline int32_t sofretu_store_entry(const sofretu_store *store, uint64_t number, sofretu_entry *entry) {
    const uint8_t *at;
    uint32_t four;
    int32_t refused = sofretu_there_(store);
    if (refused == 0) {
        refused = sofretu_there_(entry);
    }
    if (refused == 0) {
        refused = sofretu_bytes_there_(store->bytes, store->len);
    }
    if (refused != 0) {
        return refused;
    }
    if (sofretu_overlap_(entry, sizeof *entry, store, sizeof *store) || sofretu_overlap_(entry, sizeof *entry, store->bytes, store->len)) {
        return SOFRETU_MISUSE_OVERLAP;
    }
    if (store->len % SOFRETU_ENTRY != 0 || store->len > SOFRETU_MOST_ENTRIES * SOFRETU_ENTRY || store->kept > store->len / SOFRETU_ENTRY) {
        return SOFRETU_STORE_SHAPE;
    }
    if (number >= store->kept) {
        return SOFRETU_MISUSE_NO_ENTRY;
    }
    at = store->bytes + number * SOFRETU_ENTRY;
    four = sofretu_four_(at + 8);
    if (!sofretu_is_value_(at[3], four)) {
        return SOFRETU_STORE_ENTRY;
    }
    entry->node = (uint32_t)at[0] | (uint32_t)at[1] << 8;
    entry->attribute = at[2];
    entry->type = at[3];
    entry->parameter = sofretu_four_(at + 4);
    /* Only an Int has the sign bit. */
    entry->value = (int64_t)four - (four >> 31 == 0 ? 0 : (int64_t)1 << 32);
    return 0;
}

/* 0, or what is wrong with a session's handles before it is opened. What a question writes comes first, and overlaps nothing. */
static inline int32_t sofretu_openable_(const sofretu_session *session, const sofretu_sheet *sheet, const sofretu_store *store,
                                        const sofretu_run *run) {
    enum { WRITTEN = 4, ALL = 6 };
    const void *at[ALL];
    uint64_t len[ALL];
    int i, j;
    int32_t number = sofretu_version() == SOFRETU_VERSION ? 0 : SOFRETU_MISUSE_VERSION;
    if (number == 0) {
        number = sofretu_there_(session);
    }
    if (number == 0) {
        number = sofretu_loaded_(sheet);
    }
    if (number == 0) {
        number = sofretu_there_(store);
    }
    if (number == 0) {
        number = sofretu_bytes_there_(store->bytes, store->len);
    }
    if (number == 0) {
        number = sofretu_there_(run);
    }
    if (number != 0) {
        return number;
    }
    at[0] = session;
    len[0] = sizeof *session;
    at[1] = store;
    len[1] = sizeof *store;
    at[2] = store->bytes;
    len[2] = store->len;
    at[3] = run;
    len[3] = sizeof *run;
    at[4] = sheet;
    len[4] = sizeof *sheet;
    at[5] = sheet->bytes;
    len[5] = sheet->len;
    for (i = 0; i < WRITTEN; i++) {
        for (j = i + 1; j < ALL; j++) {
            if (sofretu_overlap_(at[i], len[i], at[j], len[j])) {
                return SOFRETU_MISUSE_OVERLAP;
            }
        }
    }
    return 0;
}

static inline int32_t sofretu_session_open(sofretu_session *session, const sofretu_sheet *sheet, sofretu_store *store, sofretu_run *run) {
    uint32_t stop;
    int32_t number = sofretu_openable_(session, sheet, store, run);
    if (number != 0) {
        return number;
    }
    stop = sofretu_check_store(sheet->bytes, sheet->len, &sheet->checked_, store->bytes, store->len, store->kept, &session->checked_,
                               &session->place);
    session->state_ = stop == 0 ? sofretu_open_state_(session) : 0;
    session->sheet = sheet;
    session->store = store;
    session->run = run;
    session->loads_ = sheet->loads_;
    session->sheet_bytes_ = sheet->bytes;
    session->sheet_len_ = sheet->len;
    session->left_ = *store;
    return (int32_t)stop;
}

/* 0, or what was changed under an open session. */
static inline int32_t sofretu_changed_(const sofretu_session *session) {
    const sofretu_sheet *sheet = session->sheet;
    const sofretu_store *store = session->store;
    if (sofretu_loaded_(sheet) != 0 || sheet->loads_ != session->loads_ || sheet->bytes != session->sheet_bytes_ ||
        sheet->len != session->sheet_len_) {
        return SOFRETU_MISUSE_SHEET_CHANGED;
    }
    if (store->bytes != session->left_.bytes || store->len != session->left_.len || store->kept != session->left_.kept) {
        return SOFRETU_MISUSE_STORE_CHANGED;
    }
    return 0;
}

static inline int32_t sofretu_refuse_(sofretu_answer *answer, int32_t number, uint64_t kept) {
    int row;
    answer->number = number;
    answer->type = 0;
    answer->value = 0;
    answer->place = 0;
    answer->steps = 0;
    answer->kept = kept;
    for (row = 0; row < SOFRETU_TALLY_ROWS; row++) {
        answer->tally[row] = 0;
    }
    return number;
}

static inline int32_t sofretu_session_ask(sofretu_session *session, const uint8_t *question, uint64_t len, uint64_t budget, sofretu_answer *answer) {
    int64_t fields[SOFRETU_FIELDS];
    int32_t number = sofretu_there_(answer);
    if (number != 0) {
        return number;
    }
    number = sofretu_opened_(session);
    if (number != 0) {
        return sofretu_refuse_(answer, number, 0);
    }
    if (sofretu_meets_(answer, sizeof *answer, session)) {
        return SOFRETU_MISUSE_OVERLAP;
    }
    number = sofretu_changed_(session);
    if (number == 0) {
        number = sofretu_bytes_there_(question, len);
    }
    if (number != 0) {
        return sofretu_refuse_(answer, number, session->store->kept);
    }
    if (sofretu_overlap_(answer, sizeof *answer, question, len) ||
        sofretu_overlap_(answer, sizeof *answer, session->sheet_bytes_, session->sheet_len_)) {
        return SOFRETU_MISUSE_OVERLAP;
    }
    if (sofretu_meets_(question, len, session)) {
        return sofretu_refuse_(answer, SOFRETU_MISUSE_OVERLAP, session->store->kept);
    }
    sofretu_ask_checked(session->sheet_bytes_, session->sheet_len_, &session->sheet->checked_, &session->sheet->noted_, question, len,
                        session->left_.bytes, session->left_.len, session->left_.kept, budget, &session->checked_, session->run, fields,
                        answer->tally);
    answer->number = (int32_t)fields[SOFRETU_NUMBER];
    answer->type = (uint32_t)fields[SOFRETU_TYPE];
    answer->value = fields[SOFRETU_VALUE];
    answer->place = (uint64_t)fields[SOFRETU_PLACE];
    answer->steps = (uint64_t)fields[SOFRETU_STEPS];
    answer->kept = (uint64_t)fields[SOFRETU_KEPT];
    session->left_.kept = answer->kept;
    session->store->kept = answer->kept;
    return answer->number;
}

static inline int32_t sofretu_session_close(sofretu_session *session) {
    int32_t number = sofretu_opened_(session);
    if (number == 0) {
        session->state_ = 0;
    }
    return number;
}

static inline const char *sofretu_text(int32_t number) {
    switch (number) {
    case 0:
        return "done";
    case SOFRETU_SHEET_LENGTH:
        return "the sheet is longer than 65,536 bytes";
    case SOFRETU_COMMAND:
        return "the sheet has an unknown, misplaced or cut command, no end command, or bytes after it";
    case SOFRETU_TOO_MANY:
        return "the sheet declares a 33rd attribute or a 1,025th node";
    case SOFRETU_OPERAND:
        return "a command's operand is outside its values or undeclared";
    case SOFRETU_SECOND_DEFINITION:
        return "a second figure for one node and attribute, a second rule for one kind and attribute, or a second forward for one kind";
    case SOFRETU_RULE_FORM:
        return "a rule or forward is not a well-formed expression of 1 to 256 bytes, or a forward uses the parameter";
    case SOFRETU_RULE_TYPE:
        return "a rule is not of its attribute's type, or a forward is no Node";
    case SOFRETU_NO_DEFINITION:
        return "an attribute of a node has neither a figure nor a rule, and the node's kind no forward";
    case SOFRETU_STORE_SHAPE:
        return "the store's length is not that of 0 to 1,024 entries, or more is kept than it has room for";
    case SOFRETU_STORE_ENTRY:
        return "a kept entry is none of this sheet's, or repeats an earlier one";
    case SOFRETU_BUDGET:
        return "the budget is above 1,000,000 steps";
    case SOFRETU_QUESTION_FORM:
        return "the question is not a well-formed expression of 1 to 256 bytes";
    case SOFRETU_QUESTION_TYPE:
        return "the question is not of a base type";
    case SOFRETU_NULL:
        return "an attribute of null was due";
    case SOFRETU_SPENT:
        return "the budget is spent";
    case SOFRETU_DEPTH:
        return "an attribute that is not kept was due inside 64 open ones";
    case SOFRETU_OVERFLOW:
        return "a sum or difference was due that lies outside Int";
    case SOFRETU_CIRCLE:
        return "an attribute was due inside itself, and so needs its own value";
    case SOFRETU_MISUSE_VERSION:
        return "the header and the library are of different versions";
    case SOFRETU_MISUSE_NULL:
        return "a pointer is NULL where memory is needed";
    case SOFRETU_MISUSE_ALIGNMENT:
        return "a handle or an answer is not aligned to 8 bytes";
    case SOFRETU_MISUSE_OVERLAP:
        return "memory that is lent overlaps other memory of the call";
    case SOFRETU_MISUSE_NOT_LOADED:
        return "the sheet is not loaded";
    case SOFRETU_MISUSE_NOT_OPEN:
        return "the session is not open";
    case SOFRETU_MISUSE_SHEET_CHANGED:
        return "the session's sheet was loaded anew or unloaded since the session was opened";
    case SOFRETU_MISUSE_STORE_CHANGED:
        return "the session's store was given other bytes, another length or another kept number";
    case SOFRETU_MISUSE_NO_ENTRY:
        return "the store keeps no entry of this number";
    default:
        return "no stop or misuse has this number";
    }
}

static inline const char *sofretu_cause(int32_t number) {
    if (number < 0) {
        return number >= SOFRETU_MISUSE_NO_ENTRY ? "the program that calls" : "unknown";
    }
    if (number == 0) {
        return "nobody";
    }
    if (number <= SOFRETU_NO_DEFINITION) {
        return "the sheet's author";
    }
    if (number <= SOFRETU_STORE_ENTRY) {
        return "the program that lends the store";
    }
    if (number <= SOFRETU_QUESTION_TYPE) {
        return "the person who puts the question";
    }
    return number <= SOFRETU_OVERFLOW || number == SOFRETU_CIRCLE ? "the run" : "unknown";
}

#ifdef __cplusplus
}
#endif

#endif
