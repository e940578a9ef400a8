/* Reading, parsing and writing from C, on the scope document's example: its rows, its text, and a refusal; and a sentence whose
 * last semicolon is left off. */
#include "refal5.h"

#include <stdio.h>
#include <string.h>

static int failures = 0;

#define CHECK(what)                                                  \
    do {                                                             \
        if (!(what)) {                                               \
            printf("%s:%d: not so: %s\n", __FILE__, __LINE__, #what); \
            failures++;                                              \
        }                                                            \
    } while (0)

enum { WIDTH = REFAL5_NODE_WORDS };

static const uint32_t rows[4][8] = {
    {3, 1, 7, 2, 0, 13, 4, REFAL5_NO_PARENT},
    {4, 0, 0, 0, 10, 12, 4, 0},
    {6, 0, 0, 0, 0, 0, 3, 1},
    {6, 0, 0, 0, 0, 0, 4, 1},
};

int main(void) {
    const uint8_t *src = (const uint8_t *)"$ENTRY Go{=;}";
    uint32_t tokens[6 * 14], nodes[WIDTH * 5];
    uint8_t text[20];
    uint64_t answer[7];

    refal5_read(src, 13, tokens, 6 * 14, answer);
    CHECK(answer[0] == 0 && answer[1] == 7);
    memset(nodes, 0xa5, sizeof nodes);
    refal5_parse(tokens, 6 * 7, nodes, WIDTH * 5, answer);
    CHECK(answer[0] == 0 && answer[1] == 4);
    CHECK(memcmp(nodes, rows, sizeof rows) == 0);
    CHECK(nodes[WIDTH * 4] == 0xa5a5a5a5);
    memset(text, 7, sizeof text);
    refal5_write(nodes, WIDTH * 4, src, 13, text, 20, answer);
    CHECK(answer[0] == 0 && answer[1] == 18);
    CHECK(memcmp(text, "$ENTRY Go { = ; } \7\7", 20) == 0);

    refal5_write(nodes, WIDTH * 4, src, 13, text, 17, answer);
    CHECK(answer[0] == 42 && answer[1] == 0 && answer[6] == 18);
    CHECK(text[0] == 0 && text[16] == 0 && text[17] == ' ');
    refal5_parse(tokens, 6 * 6, nodes, WIDTH * 5, answer);
    CHECK(answer[0] == 30 && nodes[0] == 0 && nodes[WIDTH * 5 - 1] == 0);
    refal5_read(src, 13, tokens, 6 * 6 + 5, answer);
    CHECK(answer[0] == 25 && answer[6] == 7 && tokens[0] == 0 && tokens[40] == 0);
    refal5_read((const uint8_t *)"F{=A}?", 6, tokens, 6 * 14, answer);
    CHECK(answer[0] == 10 && answer[4] == 5 && answer[5] == 6);

    src = (const uint8_t *)"F{=A}";
    refal5_read(src, 5, tokens, 6 * 14, answer);
    CHECK(answer[0] == 0 && answer[1] == 6);
    refal5_parse(tokens, 6 * 6, nodes, WIDTH * 5, answer);
    CHECK(answer[0] == 0 && answer[1] == 5);
    CHECK(nodes[WIDTH] == 4 && nodes[WIDTH + 1] == 1 && nodes[WIDTH + 4] == 2 && nodes[WIDTH + 5] == 4);
    refal5_write(nodes, WIDTH * 5, src, 5, text, 10, answer);
    CHECK(answer[0] == 0 && answer[1] == 10);
    CHECK(memcmp(text, "F { = A } ", 10) == 0);
    return failures != 0;
}
