/* The constants of the header are the library's: kinds of tokens and nodes in the order of a source that has all, the words of
 * rows, and the number of each refusal that a source gives. */
#include "refal5.h"

#include <stdio.h>
#include <string.h>

static int failures = 0;

#define CHECK(what)                                                  \
    do {                                                             \
        if (!(what)) {                                               \
            printf("%s:%d: not so: %s\n", __FILE__, __LINE__, #what); \
            failures++;                                              \
        }                                                            \
    } while (0)

static const char *source = "$EXTRN A;$ENTRY F{s1 2'c'(B)<C>,D:{=;}=,E:{=;};}";

static const uint32_t token_kinds[] = {
    REFAL5_TOKEN_EXTERN, REFAL5_TOKEN_IDENTIFIER, REFAL5_TOKEN_SEMICOLON,
    REFAL5_TOKEN_ENTRY, REFAL5_TOKEN_IDENTIFIER, REFAL5_TOKEN_LBRACE,
    REFAL5_TOKEN_VARIABLE, REFAL5_TOKEN_NUMBER, REFAL5_TOKEN_CHAR,
    REFAL5_TOKEN_LPAREN, REFAL5_TOKEN_IDENTIFIER, REFAL5_TOKEN_RPAREN,
    REFAL5_TOKEN_LANGLE, REFAL5_TOKEN_IDENTIFIER, REFAL5_TOKEN_RANGLE,
    REFAL5_TOKEN_COMMA, REFAL5_TOKEN_IDENTIFIER, REFAL5_TOKEN_COLON,
    REFAL5_TOKEN_LBRACE, REFAL5_TOKEN_EQUALS, REFAL5_TOKEN_SEMICOLON, REFAL5_TOKEN_RBRACE,
    REFAL5_TOKEN_EQUALS, REFAL5_TOKEN_COMMA, REFAL5_TOKEN_IDENTIFIER, REFAL5_TOKEN_COLON,
    REFAL5_TOKEN_LBRACE, REFAL5_TOKEN_EQUALS, REFAL5_TOKEN_SEMICOLON, REFAL5_TOKEN_RBRACE,
    REFAL5_TOKEN_SEMICOLON, REFAL5_TOKEN_RBRACE, REFAL5_TOKEN_EOF,
};

static const uint32_t node_kinds[] = {
    REFAL5_NODE_DECLARATION, REFAL5_NODE_NAME,
    REFAL5_NODE_FUNCTION, REFAL5_NODE_SENTENCE,
    REFAL5_NODE_TERMS, REFAL5_NODE_VARIABLE, REFAL5_NODE_NUMBER, REFAL5_NODE_CHAR,
    REFAL5_NODE_BRACKET, REFAL5_NODE_IDENTIFIER, REFAL5_NODE_CALL,
    REFAL5_NODE_CONDITION, REFAL5_NODE_TERMS, REFAL5_NODE_IDENTIFIER,
    REFAL5_NODE_CONDITION_BLOCK, REFAL5_NODE_SENTENCE, REFAL5_NODE_TERMS, REFAL5_NODE_TERMS,
    REFAL5_NODE_ENDING_BLOCK, REFAL5_NODE_TERMS, REFAL5_NODE_IDENTIFIER,
    REFAL5_NODE_SENTENCE, REFAL5_NODE_TERMS, REFAL5_NODE_TERMS,
};

static const struct {
    const char *source;
    uint64_t number;
} refused[] = {
    {"\xff", REFAL5_NOT_UTF8},
    {"%", REFAL5_UNEXPECTED_CHARACTER},
    {"$entry", REFAL5_UNKNOWN_DIRECTIVE},
    {"s.", REFAL5_NO_INDEX},
    {"e.ABCDEFGHIJKLMNOP", REFAL5_INDEX_TOO_LONG},
    {"prout", REFAL5_NAME_START},
    {"ABCDEFGHIJKLMNOP", REFAL5_NAME_TOO_LONG},
    {"1.", REFAL5_NO_DIGIT_AFTER_POINT},
    {"1E", REFAL5_NO_DIGIT_AFTER_E},
    {"-1", REFAL5_SIGN_OF_WHOLE_NUMBER},
    {"4294967296", REFAL5_NUMBER_TOO_LARGE},
    {"''", REFAL5_EMPTY_TEXT},
    {"'a\n'", REFAL5_TEXT_OVER_LINES},
    {"'a", REFAL5_TEXT_NOT_CLOSED},
    {"/*", REFAL5_COMMENT_NOT_CLOSED},
    {"$EXTRN ;", REFAL5_DECLARATION_NAME},
    {"{}", REFAL5_ITEM_NAME},
    {"F{=<s1>;}", REFAL5_CALL_NAME},
    {"F{A}", REFAL5_NO_TERM},
    {"F{", REFAL5_UNEXPECTED_TOKEN},
};

#define ROWS 512

int main(void) {
    static uint32_t tokens[ROWS * REFAL5_TOKEN_WORDS], nodes[ROWS * REFAL5_NODE_WORDS];
    uint64_t answer[REFAL5_ANSWER_WORDS];

    refal5_read((const uint8_t *)source, strlen(source), tokens, ROWS * REFAL5_TOKEN_WORDS, answer);
    CHECK(answer[0] == 0 && answer[1] == sizeof token_kinds / sizeof *token_kinds);
    for (size_t i = 0; i < sizeof token_kinds / sizeof *token_kinds; i++)
        CHECK(tokens[REFAL5_TOKEN_WORDS * i] == token_kinds[i]);
    refal5_parse(tokens, REFAL5_TOKEN_WORDS * answer[1], nodes, ROWS * REFAL5_NODE_WORDS, answer);
    CHECK(answer[0] == 0 && answer[1] == sizeof node_kinds / sizeof *node_kinds);
    for (size_t i = 0; i < sizeof node_kinds / sizeof *node_kinds; i++)
        CHECK(nodes[REFAL5_NODE_WORDS * i] == node_kinds[i]);

    for (size_t i = 0; i < sizeof refused / sizeof *refused; i++) {
        const char *text = refused[i].source;
        refal5_read((const uint8_t *)text, strlen(text), tokens, ROWS * REFAL5_TOKEN_WORDS, answer);
        if (answer[0] == 0)
            refal5_parse(tokens, REFAL5_TOKEN_WORDS * answer[1], nodes, ROWS * REFAL5_NODE_WORDS, answer);
        if (answer[0] != refused[i].number) {
            printf("%s: %llu\n", text, (unsigned long long)answer[0]);
            failures++;
        }
    }
    /* What rows and bytes that are too few, or hold no list or tree, give. */
    refal5_read((const uint8_t *)"F{=;}", 5, tokens, 5, answer);
    CHECK(answer[0] == REFAL5_TOO_FEW_TOKEN_ROWS && answer[6] == 6);
    refal5_read((const uint8_t *)"F{=;}", 5, tokens, ROWS * REFAL5_TOKEN_WORDS, answer);
    refal5_parse(tokens, 6 * REFAL5_TOKEN_WORDS, nodes, 0, answer);
    CHECK(answer[0] == REFAL5_TOO_FEW_NODE_ROWS && answer[6] == 4);
    refal5_parse(tokens, 0, nodes, 0, answer);
    CHECK(answer[0] == REFAL5_NO_TOKEN_LIST);
    refal5_parse(tokens, 6 * REFAL5_TOKEN_WORDS, nodes, 4 * REFAL5_NODE_WORDS, answer);
    uint8_t text[16];
    refal5_write(nodes, 4 * REFAL5_NODE_WORDS, (const uint8_t *)"F{=;}", 5, text, 3, answer);
    CHECK(answer[0] == REFAL5_TEXT_LONGER_THAN_OUTPUT && answer[6] == 10);
    refal5_write(nodes, 4 * REFAL5_NODE_WORDS, (const uint8_t *)"f{=;}", 5, text, 16, answer);
    CHECK(answer[0] == REFAL5_NO_SPELLING);
    refal5_write(nodes, 1, (const uint8_t *)"F{=;}", 5, text, 16, answer);
    CHECK(answer[0] == REFAL5_NO_TREE);
    refal5_canonical_name((const uint8_t *)"Foo", 3, text, 2, answer);
    CHECK(answer[0] == REFAL5_OUTPUT_SHORTER_THAN_NAME);

    if (failures == 0) printf("constants: ok\n");
    return failures != 0;
}
