/* Sheet L of document 01 and its four questions, for the C tests. */
#ifndef SHEET_L_H
#define SHEET_L_H

#include <stdint.h>

enum { QUESTIONS = 4, LONGEST_QUESTION = 9 };

static const uint8_t sheet_l[] = {
    0x41, 3,    0,    0x41, 2,    0,    0x41, 2,    0,    0x4E, 0,    0x4E, 1,    0x4E, 1,    0x56, 0,    0,    0,    0xFF, 0xFF,
    0,    0,    0x56, 0,    0,    1,    0xBC, 0x02, 0,    0,    0x56, 1,    0,    0,    0,    0,    0,    0,    0x56, 1,    0,
    1,    0,    0,    0,    0,    0x56, 2,    0,    0,    0,    0,    0,    0,    0x56, 2,    0,    1,    0x2B, 0x03, 0,    0,
    0x52, 0,    2,    4,    0,    0x22, 1,    0x30, 0x10, 0x52, 1,    2,    25,   0,    0x20, 0x21, 0x21, 0x14, 1,    0x22, 1,
    0x30, 0x10, 0x12, 0,    0,    0,    0,    0x22, 2,    0x22, 0,    0x30, 0x10, 0x10, 0x22, 1,    0x30, 0x10, 0x5A};

/* D twice, node 2's dial, and own of node 0's up, which is null. */
static const struct {
    uint64_t len;
    uint8_t bytes[LONGEST_QUESTION];
    int64_t answer[6];
} questions_l[QUESTIONS] = {{6, {0x22, 2, 0x13, 1, 0, 0x10}, {0, 0, 2, 700, 8, 5}},
                            {6, {0x22, 2, 0x13, 1, 0, 0x10}, {0, 0, 2, 700, 1, 5}},
                            {6, {0x22, 2, 0x13, 2, 0, 0x10}, {0, 0, 2, 811, 6, 7}},
                            {9, {0x22, 1, 0x22, 0, 0x13, 0, 0, 0x10, 0x10}, {14, 0, 0, 0, 1, 8}}};

#endif
