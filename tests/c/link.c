/* Linking from C: two files, with no work words, with few and with as many as the header names. */
#include "refal5.h"

#include <stdio.h>
#include <string.h>

static int failures = 0;

#define CHECK(what)                                                  \
    do {                                                             \
        if (!(what)) {                                               \
            printf("%s:%d: not so: %s\n", __FILE__, __LINE__, #what); \
            failures++;                                              \
        }                                                            \
    } while (0)

enum { WIDTH = REFAL5_NODE_WORDS, MOST = 64 };

struct file {
    const char *src;
    uint32_t rows[WIDTH * MOST];
    size_t n;
};

/* The file's tree. */
static void parse(struct file *f, const char *src) {
    uint32_t tokens[6 * MOST];
    uint64_t answer[7];
    f->src = src;
    refal5_read((const uint8_t *)src, strlen(src), tokens, 6 * MOST, answer);
    CHECK(answer[0] == 0);
    refal5_parse(tokens, 6 * answer[1], f->rows, WIDTH * MOST, answer);
    CHECK(answer[0] == 0);
    f->n = WIDTH * answer[1];
}

static void link_with(const struct file *a, const struct file *b, size_t w, uint64_t answer[7]) {
    static uint32_t work[4 * MOST + 2];
    memset(work, 0xa5, sizeof work);
    refal5_link(a->rows, a->n, (const uint8_t *)a->src, strlen(a->src), b->rows, b->n, (const uint8_t *)b->src, strlen(b->src), work, w, answer);
    for (size_t i = 0; i < w; i++) CHECK(work[i] == 0);
    CHECK(work[w] == 0xa5a5a5a5);
}

/* The same answer whatever the words lent: none, one, just no bucket, one bucket, the number named, more. */
static void answers(const struct file *a, const struct file *b, uint64_t number, uint64_t count, uint64_t file, uint64_t from, uint64_t to) {
    size_t rows = (a->n + b->n) / WIDTH;
    size_t words[] = {0, 1, rows, rows + 1, 2 * rows, 2 * rows + 1};
    for (size_t k = 0; k < sizeof words / sizeof words[0]; k++) {
        uint64_t answer[7];
        link_with(a, b, words[k], answer);
        CHECK(answer[0] == number && answer[1] == count && answer[2] == 0 && answer[3] == file);
        CHECK(answer[4] == from && answer[5] == to && answer[6] == 0);
    }
}

int main(void) {
    struct file a, b;
    parse(&a, "$ENTRY Go{=<Sort-It <Print>>;}");
    parse(&b, "$EXTRN PRINT;Sort_it{e.1=e.1;}");
    answers(&a, &b, 0, 2, 0, 0, 0);
    answers(&b, &a, 0, 2, 0, 0, 0);
    /* a call inside a block, missing in both files */
    parse(&a, "F{e.1,e.1:{=<Lost>;}=;}");
    answers(&a, &b, 61, 0, 1, 12, 18);
    answers(&b, &a, 61, 0, 2, 12, 18);
    /* two functions: in one file, then in both; a name declared and defined is none */
    parse(&a, "G{}Go{}GO{=<X>;}");
    answers(&a, &b, 60, 0, 1, 7, 16);
    parse(&a, "Print{}SORT-IT{}");
    answers(&a, &b, 60, 0, 2, 13, 30);
    answers(&b, &a, 60, 0, 2, 7, 16);
    /* a variable used where none is bound, after all calls; one bound in a block only; equal by case */
    parse(&a, "F{e.A=e.a s.a;}");
    parse(&b, "G{=s.1;}");
    answers(&a, &b, 62, 0, 1, 10, 13);
    answers(&b, &a, 62, 0, 1, 3, 6);
    parse(&a, "F{e.1,e.1:{s.2=s.2;}=s.2;}");
    parse(&b, "G{}");
    answers(&b, &a, 62, 0, 2, 21, 24);
    parse(&a, "F{e.1=<Lost>e.2;}");
    answers(&a, &b, 61, 0, 1, 6, 12);
    /* empty files */
    parse(&a, "");
    answers(&a, &a, 0, 0, 0, 0, 0);
    /* 40 and 41, of file one first */
    parse(&a, "F{=<G>;}");
    a.rows[6] = 9;
    parse(&b, "H{}");
    b.rows[2] = 3;
    answers(&a, &b, 40, 0, 0, 0, 0);
    answers(&b, &a, 41, 0, 0, 0, 0);
    return failures != 0;
}
