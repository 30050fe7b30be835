/* Writes a script back in its standard text.
 *
 *     write        (from standard input to standard output)
 *
 * A script that is not written is told on standard error, `no` with number and place, and the status is 1. bindings/rust/examples/write.rs does the same. */
#include <inttypes.h>
#include <stdio.h>
#include "tarbucket.h"

/* Room for every script, and for every text. A source one byte longer is read, so that it is refused. */
#define ROOM (TARBUCKET_LONGEST + 1)

static uint8_t src[ROOM], text[TARBUCKET_TEXT_BYTES(ROOM)], out[TARBUCKET_LONGEST];
static uint32_t tokens[TARBUCKET_TOKENS_WORDS(ROOM)], tree[TARBUCKET_TREE_WORDS(ROOM)];

int main(void)
{
    uint32_t answer[TARBUCKET_WRITE_WORDS];
    size_t n = fread(src, 1, ROOM, stdin);

    if (ferror(stdin)) {
        perror("write");
        return 2;
    }
    tarbucket_write_source(src, n, tokens, TARBUCKET_TOKENS_WORDS(n), text, TARBUCKET_TEXT_BYTES(n), tree, TARBUCKET_TREE_WORDS(n), out, sizeof out,
                           answer, TARBUCKET_WRITE_WORDS);
    if (answer[TARBUCKET_ANSWER_NUMBER] != TARBUCKET_ACCEPTED) {
        fprintf(stderr, "no %" PRIu32 " %" PRIu32 "\n", answer[TARBUCKET_ANSWER_NUMBER], answer[TARBUCKET_ANSWER_PLACE]);
        return 1;
    }
    if (fwrite(out, 1, answer[TARBUCKET_ANSWER_LENGTH], stdout) != answer[TARBUCKET_ANSWER_LENGTH] || fflush(stdout)) {
        perror("write");
        return 2;
    }
    return 0;
}
