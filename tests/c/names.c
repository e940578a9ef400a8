/* The names' functions from C: results, bytes past the result, refusals. */
#include "refal5.h"

#include <stdio.h>
#include <string.h>

static int failures = 0;

#define CHECK(what)                                                  \
    do {                                                             \
        if (!(what)) {                                               \
            printf("%s:%d: not so: %s\n", __FILE__, __LINE__, #what); \
            failures++;                                              \
        }                                                            \
    } while (0)

static const uint64_t done6[7] = {0, 6, 0, 0, 0, 0, 0};
static const uint64_t refused50[7] = {50, 0, 0, 0, 0, 0, 0};

int main(void) {
    const uint8_t name[6] = "Ab_-z9";
    uint8_t out[8];
    uint64_t answer[7];

    memset(out, 7, sizeof out);
    memset(answer, 9, sizeof answer);
    refal5_canonical_name(name, 6, out, 8, answer);
    CHECK(memcmp(answer, done6, sizeof answer) == 0);
    CHECK(memcmp(out, "AB--Z9\7\7", 8) == 0);

    memset(out, 7, sizeof out);
    refal5_canonical_index(name, 6, out, 6, answer);
    CHECK(memcmp(answer, done6, sizeof answer) == 0);
    CHECK(memcmp(out, "AB_-Z9\7\7", 8) == 0);

    memset(out, 7, sizeof out);
    refal5_canonical_name(name, 6, out, 5, answer);
    CHECK(memcmp(answer, refused50, sizeof answer) == 0);
    CHECK(memcmp(out, "\0\0\0\0\0\7\7\7", 8) == 0);

    CHECK(refal5_names_equal(name, 6, (const uint8_t *)"aB-_Z9", 6));
    CHECK(!refal5_names_equal(name, 6, (const uint8_t *)"aB-_Z8", 6));
    CHECK(!refal5_names_equal(name, 6, name, 5));
    CHECK(refal5_names_equal(name, 0, name, 0));
    return failures != 0;
}
