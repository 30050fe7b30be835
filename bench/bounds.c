/* What parts of the reader's work take in plain C (GNU C, for the ranges in a table), with nothing proved: bounds to hold the reader's time against. They
 * are no part of the reader; the driver times them beside it.
 *
 * bound_zeroing writes zeros over the three areas of a source, 77n + 76 bytes, and does nothing else.
 *
 * bound_tokens checks that the source is UTF-8, writes its tokens, and writes zeros behind them and over the areas of text and tree: each cell once, as
 * the reader does. On a source that the reader accepts, the tokens are the reader's, word for word; the driver holds them against each other before
 * it times anything. The rest of the reader's work is left out: no text, no header and no node are written, and no literal's value is read. A source
 * that is not UTF-8 is the only one it refuses; of others that the reader refuses it makes some tokens, which fit into the area too. No character's class is
 * looked up: each byte above 127 is taken for a letter, which is right where the reader accepts. */
#include <stdbool.h>
#include <stddef.h>
#include <stdint.h>
#include <string.h>

#include "../include/tarbucket.h"

_Static_assert(__BYTE_ORDER__ == __ORDER_LITTLE_ENDIAN__, "a word's first byte is its lowest");

#define CODE(name) TARBUCKET_TOKEN_##name

/* What a byte begins: GAP stands between tokens, and a name goes on with what is from LETTER on. A byte that begins no token is ONE, of code 0. */
enum { GAP = -1, ONE, LONGER, QUOTE, SIGN, LINE_FEED, LETTER, DIGIT };

/* Of a byte: what it begins, and the code of the token that is this byte; with the byte `second` behind it, the code is `longer`. */
struct row {
    int8_t begins;
    uint8_t code, second, longer;
};

static const struct row ROWS[256] = {
    [' '] = {GAP, 0, 0, 0},
    ['\t'] = {GAP, 0, 0, 0},
    ['\r'] = {GAP, 0, 0, 0},
    ['#'] = {GAP, 0, 0, 0},
    ['"'] = {QUOTE, 0, 0, 0},
    ['\''] = {QUOTE, 0, 0, 0},
    ['+'] = {SIGN, CODE(PLUS), 0, 0},
    ['-'] = {SIGN, CODE(MINUS), 0, 0},
    ['*'] = {ONE, CODE(STAR), 0, 0},
    ['/'] = {LONGER, CODE(SLASH), '/', CODE(SLASH_SLASH)},
    ['%'] = {ONE, CODE(PERCENT), 0, 0},
    ['='] = {LONGER, CODE(EQUAL), '=', CODE(EQUAL_EQUAL)},
    ['!'] = {LONGER, 0, '=', CODE(NOT_EQUAL)},
    ['<'] = {LONGER, CODE(LESS), '=', CODE(LESS_EQUAL)},
    ['>'] = {LONGER, CODE(GREATER), '=', CODE(GREATER_EQUAL)},
    ['('] = {ONE, CODE(LPAREN), 0, 0},
    [')'] = {ONE, CODE(RPAREN), 0, 0},
    ['['] = {ONE, CODE(LBRACKET), 0, 0},
    [']'] = {ONE, CODE(RBRACKET), 0, 0},
    ['{'] = {ONE, CODE(LBRACE), 0, 0},
    ['}'] = {ONE, CODE(RBRACE), 0, 0},
    [':'] = {ONE, CODE(COLON), 0, 0},
    [','] = {ONE, CODE(COMMA), 0, 0},
    [';'] = {ONE, CODE(SEMICOLON), 0, 0},
    ['.'] = {ONE, CODE(DOT), 0, 0},
    ['\n'] = {LINE_FEED, 0, 0, 0},
    ['a' ... 'z'] = {LETTER, 0, 0, 0},
    ['A' ... 'Z'] = {LETTER, 0, 0, 0},
    ['_'] = {LETTER, 0, 0, 0},
    ['0' ... '9'] = {DIGIT, 0, 0, 0},
    [128 ... 255] = {LETTER, 0, 0, 0},
};

/* The keywords, each in a slot of its own. The bytes behind a short one are 0. */
struct keyword {
    char word[8];
    uint32_t code;
};

#define SLOT(first, last, length) (((first) + (last) + 4 * (length)) % 64)

static const struct keyword KEYWORDS[64] = {
    [SLOT('i', 'f', 2)] = {"if", CODE(IF)},
    [SLOT('e', 'f', 4)] = {"elif", CODE(ELIF)},
    [SLOT('e', 'e', 4)] = {"else", CODE(ELSE)},
    [SLOT('w', 'e', 5)] = {"while", CODE(WHILE)},
    [SLOT('f', 'r', 3)] = {"for", CODE(FOR)},
    [SLOT('i', 'n', 2)] = {"in", CODE(IN)},
    [SLOT('d', 'f', 3)] = {"def", CODE(DEF)},
    [SLOT('r', 'n', 6)] = {"return", CODE(RETURN)},
    [SLOT('a', 'd', 3)] = {"and", CODE(AND)},
    [SLOT('o', 'r', 2)] = {"or", CODE(OR)},
    [SLOT('n', 't', 3)] = {"not", CODE(NOT)},
    [SLOT('c', 's', 5)] = {"class", CODE(CLASS)},
    [SLOT('b', 'k', 5)] = {"break", CODE(BREAK)},
    [SLOT('c', 'e', 8)] = {"continue", CODE(CONTINUE)},
    [SLOT('p', 's', 4)] = {"pass", CODE(PASS)},
    [SLOT('l', 'a', 6)] = {"lambda", CODE(LAMBDA)},
    [SLOT('N', 'e', 4)] = {"None", CODE(NONE)},
    [SLOT('T', 'e', 4)] = {"True", CODE(BOOL)},
    [SLOT('F', 'e', 5)] = {"False", CODE(BOOL)},
};

static bool between(uint8_t byte, uint8_t low, uint8_t high) {
    return low <= byte && byte <= high;
}

/* The length of the well-formed sequence at a byte above 127, by table 3-7 of the Unicode Standard; 0 where there is none. */
static size_t sequence(const uint8_t *at, size_t left) {
    uint8_t first = at[0];
    size_t length = between(first, 0xC2, 0xDF) ? 2 : between(first, 0xE0, 0xEF) ? 3 : between(first, 0xF0, 0xF4) ? 4 : 0;
    if (length == 0 || left < length) return 0;
    uint8_t low = first == 0xE0 ? 0xA0 : first == 0xF0 ? 0x90 : 0x80;
    uint8_t high = first == 0xED ? 0x9F : first == 0xF4 ? 0x8F : 0xBF;
    if (!between(at[1], low, high)) return 0;
    for (size_t i = 2; i < length; i++) {
        if (!between(at[i], 0x80, 0xBF)) return 0;
    }
    return length;
}

/* Whether eight bytes are left, and all of them are ASCII. */
static bool eight_are_ascii(const uint8_t *at, size_t left) {
    uint64_t eight;
    if (left < 8) return false;
    memcpy(&eight, at, 8);
    return (eight & 0x8080808080808080u) == 0;
}

static bool is_utf8(const uint8_t *src, size_t n) {
    size_t at = 0;
    while (at < n) {
        if (eight_are_ascii(src + at, n - at)) {
            at += 8;
        } else if (src[at] < 0x80) {
            at++;
        } else {
            size_t length = sequence(src + at, n - at);
            if (length == 0) return false;
            at += length;
        }
    }
    return true;
}

/* The scanner: it is at a place of the source, and the next token is written at `out`. Where `counting` is set, spaces count, against the deepest
 * open level, `top`. */
struct scanner {
    const uint8_t *src;
    size_t n, at;
    uint32_t *out;
    size_t top;
    bool counting;
};

/* What the byte at a place begins; no token at the end. */
static int begins(const struct scanner *s, size_t at) {
    return at < s->n ? ROWS[s->src[at]].begins : ONE;
}

static void put(struct scanner *s, uint32_t code, size_t start) {
    s->out[TARBUCKET_TOKEN_CODE] = code;
    s->out[TARBUCKET_TOKEN_START] = (uint32_t)start;
    s->out[TARBUCKET_TOKEN_END] = (uint32_t)s->at;
    s->out += TARBUCKET_TOKEN_WORDS;
}

/* Counts the spaces of a line, and writes an Indent or Dedents; a blank line and a comment change nothing. */
static void indentation(struct scanner *s) {
    size_t start = s->at;
    while (s->at < s->n && s->src[s->at] == ' ') s->at++;
    uint8_t next = s->at < s->n ? s->src[s->at] : 0;
    if (next == '\n' || next == '\r' || next == '#') return;
    s->counting = false;
    size_t count = s->at - start;
    if (count > s->top) put(s, CODE(INDENT), start);
    for (; s->top > count + 1; s->top -= 2) put(s, CODE(DEDENT), start);
    s->top = count;
}

/* Passes over blanks and comments. */
static void skip_gap(struct scanner *s) {
    while (begins(s, s->at) < ONE) {
        if (s->src[s->at] != '#') {
            s->at++;
        } else {
            while (s->at < s->n && s->src[s->at] != '\n') s->at++;
        }
    }
}

static void skip_digits(struct scanner *s) {
    while (begins(s, s->at) == DIGIT) s->at++;
}

/* Passes over a dot with digits and the exponent behind them, and says whether they are there. */
static bool skip_fraction(struct scanner *s) {
    if (s->at == s->n || s->src[s->at] != '.' || begins(s, s->at + 1) != DIGIT) return false;
    s->at++;
    skip_digits(s);
    if (s->at == s->n || (s->src[s->at] | 32) != 'e') return true;
    size_t digits = s->at + 1 + (begins(s, s->at + 1) == SIGN);
    if (begins(s, digits) != DIGIT) return true;
    s->at = digits;
    skip_digits(s);
    return true;
}

/* Passes over a string behind its first quote. */
static void skip_string(struct scanner *s, uint8_t quote) {
    while (s->at < s->n && s->src[s->at] != quote) s->at += 1 + (s->src[s->at] == '\\');
    s->at = s->at < s->n ? s->at + 1 : s->n;
}

/* The code of a word, which is compared as eight bytes with zeros behind it; its first byte is the lowest, as on x86-64. */
static uint32_t word_code(const uint8_t *start, size_t length, size_t left) {
    if (length > 8) return CODE(IDENTIFIER);
    const struct keyword *keyword = &KEYWORDS[SLOT(start[0], start[length - 1], length)];
    uint64_t word = 0, other;
    if (left >= 8) {
        memcpy(&word, start, 8);
        word &= ~(uint64_t)0 >> (64 - 8 * length);
    } else {
        memcpy(&word, start, length);
    }
    memcpy(&other, keyword->word, 8);
    return word == other ? keyword->code : CODE(IDENTIFIER);
}

/* Passes over the token at a place, and gives its code. */
static uint32_t take(struct scanner *s) {
    size_t start = s->at++;
    const struct row *row = &ROWS[s->src[start]];
    switch (row->begins) {
    case LETTER:
        while (begins(s, s->at) >= LETTER) s->at++;
        return word_code(s->src + start, s->at - start, s->n - start);
    case SIGN:
        if (begins(s, s->at) != DIGIT) return row->code;
        skip_digits(s);
        return CODE(INT);
    case DIGIT:
        skip_digits(s);
        return skip_fraction(s) ? CODE(FLOAT) : CODE(INT);
    case QUOTE:
        skip_string(s, s->src[start]);
        return CODE(STRING);
    case LINE_FEED:
        s->counting = true;
        return CODE(NEWLINE);
    case LONGER:
        if (s->at == s->n || s->src[s->at] != row->second) return row->code;
        s->at++;
        return row->longer;
    default:
        return row->code;
    }
}

/* Writes all tokens, the closing Dedents and Eof, and gives the place behind them. */
static uint32_t *scan(const uint8_t *src, size_t n, uint32_t *tokens) {
    struct scanner s = {src, n, 0, tokens, 0, true};
    for (;;) {
        if (s.counting) indentation(&s);
        skip_gap(&s);
        if (s.at == n) break;
        size_t start = s.at;
        uint32_t code = take(&s);
        put(&s, code, start);
    }
    for (; s.top > 1; s.top -= 2) put(&s, CODE(DEDENT), n);
    put(&s, CODE(EOF), n);
    return s.out;
}

void bound_zeroing(size_t n, uint32_t *tokens, uint8_t *text, uint32_t *tree) {
    memset(tokens, 0, sizeof *tokens * TARBUCKET_TOKENS_WORDS(n));
    memset(text, 0, TARBUCKET_TEXT_BYTES(n));
    memset(tree, 0, sizeof *tree * TARBUCKET_TREE_WORDS(n));
}

/* The number of tokens without Eof, or n + 1 where the source is not UTF-8. */
size_t bound_tokens(const uint8_t *src, size_t n, uint32_t *tokens, uint8_t *text, uint32_t *tree) {
    if (!is_utf8(src, n)) return n + 1;
    uint32_t *behind = scan(src, n, tokens);
    size_t words = (size_t)(behind - tokens);
    memset(behind, 0, sizeof *tokens * (TARBUCKET_TOKENS_WORDS(n) - words));
    memset(text, 0, TARBUCKET_TEXT_BYTES(n));
    memset(tree, 0, sizeof *tree * TARBUCKET_TREE_WORDS(n));
    return words / TARBUCKET_TOKEN_WORDS - 1;
}
