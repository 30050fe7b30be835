/* Something wrong in front of the true library, whose functions stack/wrong.sh has given other names. */
#include "tarbucket.h"

#define PARAMETERS                                                                                                                                   \
    const uint8_t *src, size_t src_len, uint32_t *tokens, size_t tokens_len, uint8_t *text, size_t text_len, uint32_t *tree, size_t tree_len,        \
        uint32_t *answer, size_t answer_len
#define ARGUMENTS src, src_len, tokens, tokens_len, text, text_len, tree, tree_len, answer, answer_len

#define WRITE_PARAMETERS                                                                                                                             \
    const uint8_t *src, size_t src_len, uint32_t *tokens, size_t tokens_len, uint8_t *text, size_t text_len, uint32_t *tree, size_t tree_len,        \
        uint8_t *out, size_t out_len, uint32_t *answer, size_t answer_len
#define WRITE_ARGUMENTS src, src_len, tokens, tokens_len, text, text_len, tree, tree_len, out, out_len, answer, answer_len

uint32_t true_parse_source(PARAMETERS);
uint32_t true_write_source(WRITE_PARAMETERS);
uint32_t true_utf8_error(const uint8_t *src, size_t src_len, uint64_t *answer, size_t answer_len);

/* A frame for each: what is written behind the call keeps the compiler from making a loop of it. */
static uint32_t frames(size_t count, PARAMETERS) {
    volatile uint8_t frame[FRAME];
    uint32_t number = count == 0 ? true_parse_source(ARGUMENTS) : frames(count - 1, ARGUMENTS);
    frame[0] = 1;
    return number;
}

/* The pluses of a source. */
static size_t pluses(const uint8_t *src, size_t src_len) {
    size_t count = 0;
    for (size_t at = 0; at < src_len; at++) count += src[at] == '+';
    return count;
}

/* The levels of a source, roughly: half of the spaces that stand together, and the brackets that are open; at most 64. */
static size_t levels(const uint8_t *src, size_t src_len) {
    size_t spaces = 0, open = 0, most = 0;
    for (size_t at = 0; at < src_len; at++) {
        spaces = src[at] == ' ' ? spaces + 1 : 0;
        open += src[at] == '(' || src[at] == '[' || src[at] == '{';
        open -= open > 0 && (src[at] == ')' || src[at] == ']' || src[at] == '}');
        most = spaces / 2 > most ? spaces / 2 : most;
        most = open > most ? open : most;
    }
    return most < 64 ? most : 64;
}

/* A byte so far below, the same as one of the paints. */
#define TOUCH(BELOW) __asm__ volatile("movb $0xa5, -" #BELOW "(%%rsp)" ::: "memory")

uint32_t tarbucket_parse_source(PARAMETERS) {
    uint32_t number = frames(COUNT, ARGUMENTS);
    if (AFTER == 1 && number == TARBUCKET_TOO_DEEP) answer[0] = number = TARBUCKET_MISFIT;
    if (AFTER == 2) TOUCH(40000);
    return number;
}

uint32_t tarbucket_write_source(WRITE_PARAMETERS) {
    uint32_t number = true_write_source(WRITE_ARGUMENTS);
    if (AFTER == 5) TOUCH(132000);
    if (AFTER == 6 && number == TARBUCKET_ACCEPTED) out[answer[TARBUCKET_ANSWER_LENGTH] - 1] = ' ';
    if (AFTER == 8 && number == TARBUCKET_ACCEPTED && out[0] == 'a') out[0] = 'b';
    if (AFTER == 7 && number == TARBUCKET_ACCEPTED) answer[0] = number = TARBUCKET_NO_ROOM;
    return number;
}

uint32_t tarbucket_utf8_error(const uint8_t *src, size_t src_len, uint64_t *answer, size_t answer_len) {
    uint32_t number = true_utf8_error(src, src_len, answer, answer_len);
    if (AFTER == 3) TOUCH(66000);
    if (AFTER == 4 && number == TARBUCKET_NOT_UTF8) answer[TARBUCKET_UTF8_PLACE]++;
    return number;
}
