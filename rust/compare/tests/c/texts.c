/* Prints the version, and the words of numbers that mean something and of some that do not: number, cause and text, with a bar between. */
#include <inttypes.h>
#include <stdio.h>

#include "sofretu.h"

int main(void) {
    printf("%" PRIu32 "|%d|%s\n", sofretu_version(), SOFRETU_VERSION, SOFRETU_VERSION_TEXT);
    for (int32_t number = -12; number <= 24; number++) {
        printf("%" PRId32 "|%s|%s\n", number, sofretu_cause(number), sofretu_text(number));
    }
    printf("%" PRId32 "|%s|%s\n", INT32_MIN, sofretu_cause(INT32_MIN), sofretu_text(INT32_MIN));
    printf("%" PRId32 "|%s|%s\n", INT32_MAX, sofretu_cause(INT32_MAX), sofretu_text(INT32_MAX));
    return 0;
}
