/* The normal form of a real from C: digits, sign and power, bytes past the digits, refusals. */
#include "refal5.h"

#include <stdio.h>
#include <string.h>

static int failures = 0;

#define CHECK(what)                                                  \
    do {                                                             \
        if (!(what)) {                                               \
            printf("%s:%d: not so: %s\n", __FILE__, __LINE__, #what); \
            failures++;                                              \
        }                                                            \
    } while (0)

static uint8_t digits[8];
static uint64_t form[3];
static uint64_t answer[7];

/* Calls with m bytes lent; what was in them, in form and in answer stands there before. */
static void real(const char *text, size_t m) {
    memset(digits, 7, sizeof digits);
    memset(form, 9, sizeof form);
    memset(answer, 9, sizeof answer);
    refal5_real((const uint8_t *)text, strlen(text), digits, m, form, answer);
}

static bool answers(uint64_t number, uint64_t count, uint64_t need) {
    const uint64_t want[7] = {number, count, 0, 0, 0, 0, need};
    return memcmp(answer, want, sizeof want) == 0;
}

static bool forms(uint64_t minus, uint64_t down, uint64_t power) {
    return form[0] == minus && form[1] == down && form[2] == power;
}

int main(void) {
    real("150.0", 8);
    CHECK(answers(0, 2, 0) && forms(0, 0, 1) && memcmp(digits, "15\7\7\7\7\7\7", 8) == 0);
    real("1.50E2", 2);
    CHECK(answers(0, 2, 0) && forms(0, 0, 1) && memcmp(digits, "15\7\7\7\7\7\7", 8) == 0);
    real("-00.01234E-7", 8);
    CHECK(answers(0, 4, 0) && forms(1, 1, 12) && memcmp(digits, "1234\7\7\7\7", 8) == 0);

    real("-0.0E7", 0);
    CHECK(answers(0, 0, 0) && forms(0, 0, 0) && memcmp(digits, "\7\7\7\7\7\7\7\7", 8) == 0);
    real("10E999999999", 1);
    CHECK(answers(0, 1, 0) && forms(0, 0, 1000000000) && digits[0] == '1' && digits[1] == 7);

    real("1.25", 2);
    CHECK(answers(66, 0, 3) && forms(0, 0, 0) && memcmp(digits, "\0\0\7\7\7\7\7\7", 8) == 0);
    real("-0E1000000000", 2);
    CHECK(answers(65, 0, 0) && forms(0, 0, 0) && memcmp(digits, "\0\0\7\7\7\7\7\7", 8) == 0);
    real("15", 8);
    CHECK(answers(64, 0, 0) && forms(0, 0, 0) && memcmp(digits, "\0\0\0\0\0\0\0\0", 8) == 0);
    real("1.5 ", 8);
    CHECK(answers(64, 0, 0));
    real("", 8);
    CHECK(answers(64, 0, 0));
    return failures != 0;
}
