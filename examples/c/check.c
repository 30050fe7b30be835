/* Tells whether standard input is UTF-8.
 *
 *     check
 *
 * It prints number, place and rounds, as include/tarbucket.h has them. bindings/rust/examples/check.rs does the same. */
#include <inttypes.h>
#include <stdio.h>
#include <stdlib.h>
#include "tarbucket.h"

int main(void)
{
    size_t room = 65536, n = 0, got;
    uint8_t *text = malloc(room);
    uint64_t answer[TARBUCKET_UTF8_WORDS];
    uint32_t number;

    while (text && (got = fread(text + n, 1, room - n, stdin)) > 0) {
        n += got;
        if (n == room) {
            uint8_t *more = realloc(text, room *= 2);
            if (!more)
                free(text);
            text = more;
        }
    }
    if (!text || ferror(stdin)) {
        perror("check");
        return 2;
    }
    number = tarbucket_utf8_error(text, n, answer, TARBUCKET_UTF8_WORDS);
    printf("%" PRIu32 " %" PRIu64 " %" PRIu64 "\n", number, answer[TARBUCKET_UTF8_PLACE], answer[TARBUCKET_UTF8_ROUNDS]);
    free(text);
    return 0;
}
