/* refal5: a proved front end for Refal-5. Link target/staticlib/librefal5.a, which `tools/staticlib` makes.
 *
 * Every function takes every input. A slice is a pointer and a count of elements; what is lent for reading is not changed.
 * answer[0] is 0 where the call is done, else the refusal's number, and then every element lent for output is 0.
 *   answer[1]  rows or bytes put down, or calls resolved (0 on refusal)
 *   answer[2]  token kind expected        answer[3]  token kind found; the file, 1 or 2, in refusals 60 and 61
 *   answer[4]  span start, in bytes       answer[5]  span end, exclusive
 *   answer[6]  rows or bytes that would be needed
 * Slices lent to one call do not overlap, and answer overlaps none of them. A pointer is not null, also where the count is 0.
 */
#ifndef REFAL5_H
#define REFAL5_H

#include <stdbool.h>
#include <stddef.h>
#include <stdint.h>

#ifdef __cplusplus
extern "C" {
#endif

/* Constants, made from the tables of the Rust crate: kinds, refusals and widths. */
#define REFAL5_TOKEN_ENTRY 1
#define REFAL5_TOKEN_EXTERN 2
#define REFAL5_TOKEN_IDENTIFIER 3
#define REFAL5_TOKEN_VARIABLE 4
#define REFAL5_TOKEN_NUMBER 5
#define REFAL5_TOKEN_CHAR 6
#define REFAL5_TOKEN_LBRACE 7
#define REFAL5_TOKEN_RBRACE 8
#define REFAL5_TOKEN_LPAREN 9
#define REFAL5_TOKEN_RPAREN 10
#define REFAL5_TOKEN_LANGLE 11
#define REFAL5_TOKEN_RANGLE 12
#define REFAL5_TOKEN_COMMA 13
#define REFAL5_TOKEN_COLON 14
#define REFAL5_TOKEN_EQUALS 15
#define REFAL5_TOKEN_SEMICOLON 16
#define REFAL5_TOKEN_EOF 17
#define REFAL5_NODE_DECLARATION 1
#define REFAL5_NODE_NAME 2
#define REFAL5_NODE_FUNCTION 3
#define REFAL5_NODE_SENTENCE 4
#define REFAL5_NODE_CONDITION 5
#define REFAL5_NODE_TERMS 6
#define REFAL5_NODE_ENDING_BLOCK 7
#define REFAL5_NODE_CONDITION_BLOCK 8
#define REFAL5_NODE_IDENTIFIER 9
#define REFAL5_NODE_NUMBER 10
#define REFAL5_NODE_CHAR 11
#define REFAL5_NODE_VARIABLE 12
#define REFAL5_NODE_BRACKET 13
#define REFAL5_NODE_CALL 14
#define REFAL5_SOURCE_TOO_LONG 1
#define REFAL5_NOT_UTF8 2
#define REFAL5_UNEXPECTED_CHARACTER 10
#define REFAL5_UNKNOWN_DIRECTIVE 11
#define REFAL5_NO_INDEX 12
#define REFAL5_INDEX_TOO_LONG 13
#define REFAL5_NAME_START 14
#define REFAL5_NAME_TOO_LONG 15
#define REFAL5_NO_DIGIT_AFTER_POINT 16
#define REFAL5_NO_DIGIT_AFTER_E 17
#define REFAL5_SIGN_OF_WHOLE_NUMBER 18
#define REFAL5_NUMBER_TOO_LARGE 19
#define REFAL5_TEXT_TOO_LONG 20
#define REFAL5_EMPTY_TEXT 21
#define REFAL5_TEXT_OVER_LINES 22
#define REFAL5_TEXT_NOT_CLOSED 23
#define REFAL5_COMMENT_NOT_CLOSED 24
#define REFAL5_TOO_FEW_TOKEN_ROWS 25
#define REFAL5_NO_TOKEN_LIST 30
#define REFAL5_DECLARATION_NAME 31
#define REFAL5_ITEM_NAME 32
#define REFAL5_CALL_NAME 33
#define REFAL5_NO_TERM 34
#define REFAL5_UNEXPECTED_TOKEN 35
#define REFAL5_VARIABLE_LETTER 36
#define REFAL5_TOO_DEEP 37
#define REFAL5_TOO_FEW_NODE_ROWS 38
#define REFAL5_NO_TREE 40
#define REFAL5_NO_SPELLING 41
#define REFAL5_TEXT_LONGER_THAN_OUTPUT 42
#define REFAL5_OUTPUT_SHORTER_THAN_NAME 50
#define REFAL5_NAME_TWICE 60
#define REFAL5_NAME_MISSING 61
#define REFAL5_VARIABLE_UNBOUND 62
#define REFAL5_NO_REAL 64
#define REFAL5_EXPONENT_TOO_LONG 65
#define REFAL5_REAL_LONGER_THAN_OUTPUT 66
#define REFAL5_TOKEN_WORDS 6
#define REFAL5_NODE_WORDS 8
#define REFAL5_NO_PARENT 4294967295
#define REFAL5_ANSWER_WORDS 7
#define REFAL5_MAX_BYTES 16777216
/* End of the constants. */

/* The canonical form of a name (a to z become A to Z, _ becomes -) or of a variable's index (letters only). Refusal 50 where out
 * is shorter than name. */
void refal5_canonical_name(const uint8_t *name, size_t n, uint8_t *out, size_t m, uint64_t answer[7]);
void refal5_canonical_index(const uint8_t *name, size_t n, uint8_t *out, size_t m, uint64_t answer[7]);

/* Whether two names are equal: their canonical forms are. */
bool refal5_names_equal(const uint8_t *a, size_t n, const uint8_t *b, size_t m);

/* Reading: src as tokens. A row of rows has six words (kind, detail, text start, text length, span start, span end); m counts
 * words, and a row is put down only whole. A source of n bytes has at most n + 1 tokens. Refusals 1, 2, 10 to 25. */
void refal5_read(const uint8_t *src, size_t n, uint32_t *rows, size_t m, uint64_t answer[7]);

/* Parsing: token words, as reading puts them down, as the tree's rows. A row has eight words (kind, detail, text start, text
 * length, span start, span end, next: the row after its subtree, parent: its parent's row, or REFAL5_NO_PARENT), parent first; n and m
 * count words. k tokens have at most 2 * k nodes. Refusals 30 to 38. */
void refal5_parse(const uint32_t *tokens, size_t n, uint32_t *rows, size_t m, uint64_t answer[7]);

/* Writing: a tree's rows and its source as text, each token and then one space; n counts words. Refusals 40 to 42; the need of 42 is
 * the text's length. */
void refal5_write(const uint32_t *tree, size_t n, const uint8_t *src, size_t k, uint8_t *out, size_t m, uint64_t answer[7]);

/* Linking: two files, each a tree's rows and its source; n1 and n2 count words, m1 and m2 bytes. No two functions of both may have equal names, and
 * every call must name a function or a declared name of either, and every variable must be bound where it is used. The count is that of all calls of both. Refusals in this order: 40 and 41 of
 * file one, of file two (answer[3] is 0), 60 at the first function that has an earlier equal one, 61 at the first call whose name is missing, 62 at the
 * first variable that is used where no equal one is bound; file one's rows before file two's.
 * work is any number of words, none allowed: the answer does not depend on how many there are or what they hold, and afterwards each is 0. With at least
 * 2 words for each row of both trees, 2 * (n1 + n2) / REFAL5_NODE_WORDS, the time is linear on average; with fewer each name may cost a look at every row. */
void refal5_link(const uint32_t *tree1, size_t n1, const uint8_t *src1, size_t m1, const uint32_t *tree2, size_t n2, const uint8_t *src2, size_t m2,
                 uint32_t *work, size_t w, uint64_t answer[7]);

/* The normal form of a real, a Number's text with a point or an E: digits (ASCII, the first one first) without leading or trailing
 * zeros, of which answer[1] says how many were put down, and
 *   form[0]  sign: 0 plus, 1 minus
 *   form[1]  the power of ten's sign: 0 for zero or plus, 1 minus     form[2]  its magnitude
 * so that the value is the digits as a whole number times that power of ten. Zero has no digits, plus sign, power 0. Two reals that
 * are not refused have the same value exactly when their forms are equal. A text of n bytes has less than n digits. Refusals 64: no
 * real that reading gives; 65: the exponent, leading zeros aside, has over 9 digits; 66: more digits than m, which the need says. */
void refal5_real(const uint8_t *text, size_t n, uint8_t *digits, size_t m, uint64_t form[3], uint64_t answer[7]);

#ifdef __cplusplus
}
#endif

#endif
