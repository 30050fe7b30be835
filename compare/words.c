/* Reads sources through the static library, for cpython.py. On standard input: length (4 bytes, low first) and bytes of each source. On standard
   output, for each, 4-byte words: the six numbers of the answer; where it accepts, also the 8 + 8N words of header and records, and then the bytes
   of the text. */
#include <stdint.h>
#include <stdio.h>
#include <stdlib.h>

uint32_t tarbucket_parse_source(const uint8_t *src, size_t src_len, uint32_t *tokens, size_t tokens_len, uint8_t *text, size_t text_len,
                                uint32_t *tree, size_t tree_len, uint32_t *answer, size_t answer_len);

int main(void) {
    enum { LONGEST = 65536 };
    static uint8_t source[LONGEST], text[LONGEST];
    static uint32_t tokens[3 * (LONGEST + 1)], tree[16 * LONGEST + 16], answer[6];
    uint32_t n;
    while (fread(&n, 4, 1, stdin) == 1) {
        if (n > LONGEST || fread(source, 1, n, stdin) != n) return 1;
        tarbucket_parse_source(source, n, tokens, 3 * (n + 1), text, n, tree, 16 * n + 16, answer, 6);
        fwrite(answer, 4, 6, stdout);
        if (answer[0] != 0) continue;
        fwrite(tree, 4, 8 + 8 * (size_t)answer[3], stdout);
        fwrite(text, 1, answer[4], stdout);
    }
    return fflush(stdout) != 0;
}
