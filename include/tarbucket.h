/* Tarbucket: a verified reader and writer of kiosk scripts, for C and C++.
 *
 * One function reads a script, one writes it back in its standard text, and one tells whether a text is UTF-8. They have no state, allocate nothing, and use
 * only the memory that is lent to them; they end on every input of bytes.
 *
 *     tools/staticlib.sh                          (writes target/staticlib/libffi.a, for x86-64 Linux)
 *     cc -Iinclude walk.c target/staticlib/libffi.a -o walk
 *
 * n is the length of the source in bytes, a word is 32 bits unless 64 are said. "None" is TARBUCKET_NONE where a node number is held.
 */
#ifndef TARBUCKET_H
#define TARBUCKET_H

#include <stddef.h>
#include <stdint.h>

#ifdef __cplusplus
extern "C" {
#endif

/* The longest source that is read, in bytes. */
#define TARBUCKET_LONGEST 65536u

/* A call needs at most 64 KiB of stack, and one that writes a text 128 KiB, the caller's own frames and signal handlers aside. Measured by stack/run.sh, not
 * proved. */
#define TARBUCKET_STACK_BYTES 65536u
#define TARBUCKET_WRITE_STACK_BYTES 131072u

/* No node, where a field holds a node number. */
#define TARBUCKET_NONE 4294967295u

/* Returned where `answer` has too few words: fewer than six, than seven where a text is written, or than two where UTF-8 alone is checked. */
#define TARBUCKET_NO_ANSWER 4294967295u

/* The areas of a source of n bytes. A slice may be longer: the words behind its area are never touched. */
#define TARBUCKET_TOKENS_WORDS(n) (3 * ((size_t)(n) + 1))
#define TARBUCKET_TEXT_BYTES(n) ((size_t)(n))
#define TARBUCKET_TREE_WORDS(n) (16 * (size_t)(n) + 16)

/* The words of an answer. */
enum {
    TARBUCKET_ANSWER_NUMBER = 0,   /* 0: accepted; 1 to 16, but never 12: the refusal, see below; 17 and 18: the writer's */
    TARBUCKET_ANSWER_PLACE = 1,    /* the byte where it is refused; 0 where it is accepted, and with 17 and 18 */
    TARBUCKET_ANSWER_TOKENS = 2,   /* T, the tokens without Eof; 0 in refusals 1 to 11 */
    TARBUCKET_ANSWER_NODES = 3,    /* N, the nodes of the tree; 0 in refusals 1 to 16 */
    TARBUCKET_ANSWER_TEXT = 4,     /* the bytes of decoded strings; 0 in refusals 1 to 16 */
    TARBUCKET_ANSWER_OPENINGS = 5, /* the rules opened; 0 in refusals 1 to 11 */
    TARBUCKET_ANSWER_WORDS = 6
};

/* The numbers. The first question that is answered by no decides; 14 to 16 are one question, does each token fit the grammar, and the token
 * tells, with what could stand in its place, which. 17 and then 18 are asked of an accepted script, where it is written. */
enum {
    TARBUCKET_ACCEPTED = 0,
    TARBUCKET_TOO_LONG = 1,         /* more than 65,536 bytes; place 0 */
    TARBUCKET_TOKENS_TOO_SMALL = 2, /* the token slice is shorter than its area; place 0 */
    TARBUCKET_TEXT_TOO_SMALL = 3,   /* the text slice is; place 0 */
    TARBUCKET_TREE_TOO_SMALL = 4,   /* the tree slice is; place 0 */
    TARBUCKET_NOT_UTF8 = 5,         /* at the first byte of the bad sequence */
    TARBUCKET_TAB = 6,              /* a tab in the indentation, at the tab */
    TARBUCKET_TOO_FAR = 7,          /* indented by other than exactly 2 more, where the counting began */
    TARBUCKET_NO_LEVEL = 8,         /* back on no open level, where the counting began */
    TARBUCKET_NO_TOKEN = 9,         /* no token matches, at its start (an open string, or a character over 127 that begins no name, too) */
    TARBUCKET_INT_RANGE = 10,       /* an Int below -2^63 or above 2^63 - 1, at its start */
    TARBUCKET_FLOAT_RANGE = 11,     /* a Float that is not admitted, at its start */
    TARBUCKET_NOT_ASCII = 12,       /* never given, since names are in any script; kept so that older programs compile, and the number stays reserved */
    TARBUCKET_TOO_DEEP = 13,        /* more than 64 expressions and blocks open at once, at the token */
    TARBUCKET_MISFIT = 14,          /* a token that does not fit, at its start; those of 15 and 16 aside */
    TARBUCKET_CUT = 15,             /* the script ends too early: Eof does not fit, at n */
    TARBUCKET_MISSING = 16,         /* an expression or operand is missing at the end of a line or block, at the start of its Newline or Dedent */
    TARBUCKET_EMPTY_BLOCK = 17,     /* some block has no statement, so there is no text; place 0 */
    TARBUCKET_NO_ROOM = 18          /* the text is longer than its slice or than 65,536 bytes; place 0 */
};

/* A token has three words in `tokens`: code, start, end (bytes of the source). Token t stands at word 3 t; token T is Eof. */
enum {
    TARBUCKET_TOKEN_CODE = 0,
    TARBUCKET_TOKEN_START = 1,
    TARBUCKET_TOKEN_END = 2,
    TARBUCKET_TOKEN_WORDS = 3
};

/* The codes of the tokens. */
enum {
    TARBUCKET_TOKEN_IF = 1,
    TARBUCKET_TOKEN_ELIF = 2,
    TARBUCKET_TOKEN_ELSE = 3,
    TARBUCKET_TOKEN_WHILE = 4,
    TARBUCKET_TOKEN_FOR = 5,
    TARBUCKET_TOKEN_IN = 6,
    TARBUCKET_TOKEN_DEF = 7,
    TARBUCKET_TOKEN_RETURN = 8,
    TARBUCKET_TOKEN_AND = 9,
    TARBUCKET_TOKEN_OR = 10,
    TARBUCKET_TOKEN_NOT = 11,
    TARBUCKET_TOKEN_CLASS = 12,
    TARBUCKET_TOKEN_BREAK = 13,
    TARBUCKET_TOKEN_CONTINUE = 14,
    TARBUCKET_TOKEN_PASS = 15,
    TARBUCKET_TOKEN_LAMBDA = 16,
    TARBUCKET_TOKEN_NONE = 17,
    TARBUCKET_TOKEN_BOOL = 18,          /* True or False */
    TARBUCKET_TOKEN_INT = 19,           /* with its sign, if one stands right before the digits */
    TARBUCKET_TOKEN_STRING = 20,        /* with its quotes */
    TARBUCKET_TOKEN_IDENTIFIER = 21,
    TARBUCKET_TOKEN_FLOAT = 22,
    TARBUCKET_TOKEN_PLUS = 23,          /* +  */
    TARBUCKET_TOKEN_MINUS = 24,         /* -  */
    TARBUCKET_TOKEN_STAR = 25,          /* *  */
    TARBUCKET_TOKEN_SLASH_SLASH = 26,   /* two slashes */
    TARBUCKET_TOKEN_SLASH = 27,         /* one slash */
    TARBUCKET_TOKEN_PERCENT = 28,       /* %  */
    TARBUCKET_TOKEN_EQUAL_EQUAL = 29,   /* == */
    TARBUCKET_TOKEN_NOT_EQUAL = 30,     /* != */
    TARBUCKET_TOKEN_LESS = 31,          /* <  */
    TARBUCKET_TOKEN_LESS_EQUAL = 32,    /* <= */
    TARBUCKET_TOKEN_GREATER = 33,       /* >  */
    TARBUCKET_TOKEN_GREATER_EQUAL = 34, /* >= */
    TARBUCKET_TOKEN_EQUAL = 35,         /* =  */
    TARBUCKET_TOKEN_LPAREN = 36,        /* (  */
    TARBUCKET_TOKEN_RPAREN = 37,        /* )  */
    TARBUCKET_TOKEN_LBRACKET = 38,      /* [  */
    TARBUCKET_TOKEN_RBRACKET = 39,      /* ]  */
    TARBUCKET_TOKEN_LBRACE = 40,        /* {  */
    TARBUCKET_TOKEN_RBRACE = 41,        /* }  */
    TARBUCKET_TOKEN_COLON = 42,         /* :  */
    TARBUCKET_TOKEN_COMMA = 43,         /* ,  */
    TARBUCKET_TOKEN_SEMICOLON = 44,     /* ;  */
    TARBUCKET_TOKEN_DOT = 45,           /* .  */
    TARBUCKET_TOKEN_INDENT = 46,        /* spans the line's spaces */
    TARBUCKET_TOKEN_DEDENT = 47,        /* spans the line's spaces; empty at n where the source ends */
    TARBUCKET_TOKEN_NEWLINE = 48,       /* a line feed */
    TARBUCKET_TOKEN_EOF = 49            /* empty, at n */
};

/* The version of the tree's words. Since 2 a Float has the span of its token in r and s, which were 0. A caller should compare the first word of an accepted
 * tree with it: a library of another version may be linked. */
#define TARBUCKET_VERSION 2u

/* The header: the first eight words of `tree`. */
enum {
    TARBUCKET_HEADER_VERSION = 0,  /* TARBUCKET_VERSION */
    TARBUCKET_HEADER_NODES = 1,    /* N */
    TARBUCKET_HEADER_TOKENS = 2,   /* T */
    TARBUCKET_HEADER_TEXT = 3,     /* the bytes of text */
    TARBUCKET_HEADER_OFFSET = 4,   /* the word where the nodes begin: 8 */
    TARBUCKET_HEADER_ROOT = 5,     /* the number of the root, a Program: N - 1 */
    TARBUCKET_HEADER_OPENINGS = 6, /* the rules opened */
    TARBUCKET_HEADER_LENGTH = 7,   /* n */
    TARBUCKET_HEADER_WORDS = 8
};

/* A node has eight words. */
enum {
    TARBUCKET_NODE_KIND = 0,  /* a kind, see below */
    TARBUCKET_NODE_START = 1, /* the bytes of the source that the node spans: from here */
    TARBUCKET_NODE_END = 2,   /* up to here, not included */
    TARBUCKET_NODE_NEXT = 3,  /* the next member of the list that the node is in, or none */
    TARBUCKET_NODE_P = 4,     /* four fields that go by the kind; 0 where the kind has no use for one */
    TARBUCKET_NODE_Q = 5,
    TARBUCKET_NODE_R = 6,
    TARBUCKET_NODE_S = 7,
    TARBUCKET_NODE_WORDS = 8
};

/* The eight words of node k. */
#define TARBUCKET_NODE(tree, k) ((tree) + 8 + 8 * (size_t)(k))

/* The kinds, and what p, q, r and s hold.
 *
 *   node      a node number
 *   node?     a node number or none
 *   list      the number of the first member or none; the members follow by `next`
 *   name      two fields: where a name starts and ends in the source, in bytes
 *   spelling  two fields: where a Float's token starts and ends in the source, likewise. The node's span takes in parentheses around it, and is the whole
 *             statement's where the Float is an Assign's target: in `(0.10)` the node is 0 to 6, its spelling 1 to 5.
 *
 * A name is UTF-8 in any script: an XID_Start character of Unicode 15.0.0 or an underscore, then XID_Continue characters. It is not normalised: two names
 * are the same where their bytes are.
 *
 * In a chain of comparisons, a<b<c, which is And(a<b, b<c), the node of b is held twice: who walks the tree by its fields comes to it twice.
 *
 * A Tuple needs no parentheses in a return, on either side of an assignment, and as a statement of its own. One value with a comma behind it is a Tuple of
 * one there, with the comma in its span: in `1,` the Tuple is 0 to 2 and the Int 0 to 1. As an Assign's target it has the statement's span, as every target
 * has: in `a, = b` 0 to 6. Earlier libraries of version 2 have the Int alone, which the version does not tell. In a list, in arguments and the like a
 * trailing comma makes no node: [a,] and f(a,) hold a itself. */
enum {
    TARBUCKET_PROGRAM = 1,    /* p list: the lines */
    TARBUCKET_IF = 2,         /* p node: condition; q list: body; r list of Elif; s node?: Else */
    TARBUCKET_WHILE = 3,      /* p node: condition; q list: body */
    TARBUCKET_FOR = 4,        /* p q name; r node: what it goes over; s list: body */
    TARBUCKET_DEF = 5,        /* p q name; r list of Name: parameters; s list: body */
    TARBUCKET_RETURN = 6,     /* p node: value */
    TARBUCKET_ASSIGN = 7,     /* p node: target; q node: value */
    TARBUCKET_CLASS = 8,      /* p q name; r list of Method */
    TARBUCKET_BREAK = 9,      /* no fields */
    TARBUCKET_CONTINUE = 10,  /* no fields */
    TARBUCKET_PASS = 11,      /* no fields */
    TARBUCKET_EXPR = 12,      /* p node: an expression as a statement */
    TARBUCKET_METHOD = 13,    /* as Def */
    TARBUCKET_ELIF = 14,      /* p node: condition; q list: body */
    TARBUCKET_ELSE = 15,      /* p list: body */
    TARBUCKET_NAME = 16,      /* p q name: a parameter */
    TARBUCKET_PAIR = 17,      /* p node: key; q node: value */
    TARBUCKET_BOOL = 18,      /* p: 1 for True, 0 for False */
    TARBUCKET_INT = 19,       /* p: low half, q: high half of 64 bits, two's complement */
    TARBUCKET_STRING = 20,    /* p: offset, q: length of the decoded bytes in `text` */
    TARBUCKET_FLOAT = 21,     /* p: low half, q: high half of the 64 bits of an IEEE 754 double; r s spelling */
    TARBUCKET_NONE_VALUE = 22, /* no fields: None */
    TARBUCKET_VARIABLE = 23,  /* p q name */
    TARBUCKET_UNARY = 24,     /* p: unary operator; q node */
    TARBUCKET_BINARY = 25,    /* p: binary operator; q node: left; r node: right */
    TARBUCKET_CALL = 26,      /* p node: what is called; q list: arguments */
    TARBUCKET_ATTRIBUTE = 27, /* p node: object; q r name */
    TARBUCKET_LIST = 28,      /* p list: [a, b] */
    TARBUCKET_DICT = 29,      /* p list of Pair: {a: b} */
    TARBUCKET_TUPLE = 30,     /* p list: (a, b) or a, b; one member: (a,), or `a,` as said above; none: ()) */
    TARBUCKET_SET = 31,       /* p list: {a, b} */
    TARBUCKET_TREE_SET = 32,  /* p list: t{a, b} */
    TARBUCKET_INDEX = 33,     /* p node: object; q node: index */
    TARBUCKET_LAMBDA = 34     /* p list of Name: parameters; q node: value */
};

/* The operators of a Unary. */
enum {
    TARBUCKET_OP_NOT = 1,
    TARBUCKET_OP_NEGATE = 2,
    TARBUCKET_OP_POS = 3
};

/* The operators of a Binary. */
enum {
    TARBUCKET_OP_ADD = 1,
    TARBUCKET_OP_SUBTRACT = 2,
    TARBUCKET_OP_MULTIPLY = 3,
    TARBUCKET_OP_DIVIDE = 4,
    TARBUCKET_OP_FLOOR_DIVIDE = 5,
    TARBUCKET_OP_MODULO = 6,
    TARBUCKET_OP_EQUAL = 7,
    TARBUCKET_OP_NOT_EQUAL = 8,
    TARBUCKET_OP_LESS = 9,
    TARBUCKET_OP_LESS_EQUAL = 10,
    TARBUCKET_OP_GREATER = 11,
    TARBUCKET_OP_GREATER_EQUAL = 12,
    TARBUCKET_OP_AND = 13,
    TARBUCKET_OP_OR = 14
};

/* Reads a source. Writes the six words of the answer and returns the first, the number.
 *
 * Each length counts the elements behind its pointer. No pointer may be null, also where its length is 0; the slices must not overlap.
 * Accepted: `tokens`, `text` and `tree` hold T + 1 tokens, the decoded strings in the order of their tokens, and the header with N nodes; the rest of
 * each area is 0. Refused by 1 to 5: the three are as they were. Refused by 6 to 16: the three areas are 0. Words behind an area, and words of `answer`
 * behind the sixth, are as they were. Where `answer_len` is below 6, nothing is written anywhere and TARBUCKET_NO_ANSWER is returned.
 * It needs at most TARBUCKET_STACK_BYTES of stack: think of it where a thread is given a small one. */
uint32_t tarbucket_parse_source(const uint8_t *src, size_t src_len, uint32_t *tokens, size_t tokens_len,
                                uint8_t *text, size_t text_len, uint32_t *tree, size_t tree_len,
                                uint32_t *answer, size_t answer_len);

/* The answer of tarbucket_write_source has the six words above, and one more. */
enum {
    TARBUCKET_ANSWER_LENGTH = 6, /* the bytes of the text that was written; 0 in a refusal */
    TARBUCKET_WRITE_WORDS = 7
};

/* Reads a source, as tarbucket_parse_source does, and writes its standard text to the start of `out`. Writes the seven words of the answer and returns the
 * first, the number.
 *
 * Scripts with the same tree, places aside, with names, strings and the spellings of Floats compared by bytes, have the same text. A block is indented by two spaces, a statement has a line, and each line ends with a line
 * feed. A space stands around a binary operator, around = and behind a unary operator; behind the comma between members, behind the colon of a pair or
 * lambda; behind if, elif, while, for, in, return, def, class and lambda where no colon follows, and before in. There is no other blank, and no comment.
 * Parentheses stand only where the tree needs them. A tuple that is a whole statement, a returned value or a side of = is bare; a tuple of one ends with a
 * comma, the empty one is ()). Floats are as they were spelled; Ints have the fewest digits, with a minus where negative. Strings stand in double quotes, with
 * backslash, double quote, line feed, tab and carriage return escaped. A chain of comparisons is a chain.
 * The text, read with room for its areas, is accepted with the same nodes in the same order, places aside, and its own standard text is itself.
 *
 * Each length counts the elements behind its pointer. No pointer may be null, also where its length is 0; the slices must not overlap.
 * Accepted: `out` holds the text, and 0 in all bytes behind it; a slice of TARBUCKET_LONGEST bytes has room for every text that is not too long. Refused by 1 to 16, as
 * tarbucket_parse_source refuses: `out` is as it was. Refused by 17 or 18: all of `out` is 0, and the counts are those of the accepted tree. `tokens`, `text`
 * and `tree` are in every case as tarbucket_parse_source leaves them. Words of `answer` behind the seventh are as they were. Where `answer_len` is below
 * 7, nothing is written anywhere and TARBUCKET_NO_ANSWER is returned. It needs at most TARBUCKET_WRITE_STACK_BYTES of stack. */
uint32_t tarbucket_write_source(const uint8_t *src, size_t src_len, uint32_t *tokens, size_t tokens_len,
                                uint8_t *text, size_t text_len, uint32_t *tree, size_t tree_len,
                                uint8_t *out, size_t out_len, uint32_t *answer, size_t answer_len);

/* The words, of 64 bits, of the answer of tarbucket_utf8_error. */
enum {
    TARBUCKET_UTF8_PLACE = 0,  /* the first byte of the bad sequence; 0 where the text is UTF-8 */
    TARBUCKET_UTF8_ROUNDS = 1, /* the rounds of the check, see below */
    TARBUCKET_UTF8_WORDS = 2
};

/* Tells whether a text of any length is UTF-8. Writes the two words of the answer and returns TARBUCKET_ACCEPTED or TARBUCKET_NOT_UTF8. This is the check
 * by which a source is refused by 5, with the same promise: table 3-7 of the Unicode Standard.
 *
 * The check goes in rounds, from the first byte on: a round takes the next eight bytes if so many are left and all are under 128, else one sequence,
 * good or bad. A bad one ends the check, and its round is counted. So n bytes under 128 are n / 8 rounds, rounded down, and one for each byte left; an
 * empty text is none. The number of rounds is proved to be this one, in a refusal as well.
 * No pointer may be null, also where its length is 0; the two must not overlap. Words of `answer` behind the second are as they were. Where `answer_len` is
 * below 2, nothing is written and TARBUCKET_NO_ANSWER is returned. */
uint32_t tarbucket_utf8_error(const uint8_t *src, size_t src_len, uint64_t *answer, size_t answer_len);

#ifdef __cplusplus
}
#endif

#endif
