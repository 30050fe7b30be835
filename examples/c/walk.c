/* Reads a script and walks its tree.
 *
 *     walk [--list] [FILE]        (standard input where no file is named)
 *
 * It prints a line for each node from the root down: its number, kind and span, and the name or value that it has. A node that is held twice, as b in
 * a<b<c, comes once. With --list it prints what the program `tarbucket` prints, which reads up to 1,023 bytes. bindings/rust/examples/walk.rs does
 * the same. */
#include <inttypes.h>
#include <stdio.h>
#include <stdlib.h>
#include <string.h>
#include "tarbucket.h"

/* Spaces in front of a line stop at this depth. */
#define DEEPEST 32

/* What a field holds. */
enum { UNUSED, WORD, NODE, LIST };

/* Of each kind: its name, and what p, q, r and s hold. A node that may be none is a list of one or none. */
static const struct {
    const char *name;
    unsigned char fields[4];
} kinds[35] = {
    {"", {UNUSED, UNUSED, UNUSED, UNUSED}},
    {"Program", {LIST, UNUSED, UNUSED, UNUSED}},
    {"If", {NODE, LIST, LIST, LIST}},
    {"While", {NODE, LIST, UNUSED, UNUSED}},
    {"For", {WORD, WORD, NODE, LIST}},
    {"Def", {WORD, WORD, LIST, LIST}},
    {"Return", {NODE, UNUSED, UNUSED, UNUSED}},
    {"Assign", {NODE, NODE, UNUSED, UNUSED}},
    {"Class", {WORD, WORD, LIST, UNUSED}},
    {"Break", {UNUSED, UNUSED, UNUSED, UNUSED}},
    {"Continue", {UNUSED, UNUSED, UNUSED, UNUSED}},
    {"Pass", {UNUSED, UNUSED, UNUSED, UNUSED}},
    {"Expr", {NODE, UNUSED, UNUSED, UNUSED}},
    {"Method", {WORD, WORD, LIST, LIST}},
    {"Elif", {NODE, LIST, UNUSED, UNUSED}},
    {"Else", {LIST, UNUSED, UNUSED, UNUSED}},
    {"Name", {WORD, WORD, UNUSED, UNUSED}},
    {"Pair", {NODE, NODE, UNUSED, UNUSED}},
    {"Bool", {WORD, UNUSED, UNUSED, UNUSED}},
    {"Int", {WORD, WORD, UNUSED, UNUSED}},
    {"String", {WORD, WORD, UNUSED, UNUSED}},
    {"Float", {WORD, WORD, WORD, WORD}},
    {"None", {UNUSED, UNUSED, UNUSED, UNUSED}},
    {"Variable", {WORD, WORD, UNUSED, UNUSED}},
    {"Unary", {WORD, NODE, UNUSED, UNUSED}},
    {"Binary", {WORD, NODE, NODE, UNUSED}},
    {"Call", {NODE, LIST, UNUSED, UNUSED}},
    {"Attribute", {NODE, WORD, WORD, UNUSED}},
    {"List", {LIST, UNUSED, UNUSED, UNUSED}},
    {"Dict", {LIST, UNUSED, UNUSED, UNUSED}},
    {"Tuple", {LIST, UNUSED, UNUSED, UNUSED}},
    {"Set", {LIST, UNUSED, UNUSED, UNUSED}},
    {"TreeSet", {LIST, UNUSED, UNUSED, UNUSED}},
    {"Index", {NODE, NODE, UNUSED, UNUSED}},
    {"Lambda", {LIST, NODE, UNUSED, UNUSED}},
};

static const char *const unary[] = {"", "not", "-", "+"};
static const char *const binary[] = {"", "+", "-", "*", "/", "//", "%", "==", "!=", "<", "<=", ">", ">=", "and", "or"};

static void *take(size_t count, size_t size)
{
    void *p = calloc(count ? count : 1, size);
    if (!p) {
        fputs("out of memory\n", stderr);
        exit(2);
    }
    return p;
}

static void print_bytes(const uint8_t *src, uint32_t start, uint32_t end)
{
    putchar(' ');
    fwrite(src + start, 1, end - start, stdout);
}

static void print_hex(const uint8_t *bytes, uint32_t count)
{
    putchar(' ');
    while (count--)
        printf("%02x", *bytes++);
}

/* The name, value or operator of a node that has one, behind a space; of a Float the 64 bits of its value, and as it is written. */
static void print_value(const uint32_t *node, const uint8_t *src, const uint8_t *text)
{
    uint32_t p = node[TARBUCKET_NODE_P], q = node[TARBUCKET_NODE_Q];
    uint64_t bits = (uint64_t)q << 32 | p;

    switch (node[TARBUCKET_NODE_KIND]) {
    case TARBUCKET_FOR:
    case TARBUCKET_DEF:
    case TARBUCKET_METHOD:
    case TARBUCKET_CLASS:
    case TARBUCKET_NAME:
    case TARBUCKET_VARIABLE:
        print_bytes(src, p, q);
        break;
    case TARBUCKET_ATTRIBUTE:
        print_bytes(src, q, node[TARBUCKET_NODE_R]);
        break;
    case TARBUCKET_BOOL:
        printf(" %" PRIu32, p);
        break;
    case TARBUCKET_INT:
        printf(" %" PRId64, (int64_t)bits);
        break;
    case TARBUCKET_FLOAT:
        printf(" %016" PRIx64, bits);
        print_bytes(src, node[TARBUCKET_NODE_R], node[TARBUCKET_NODE_S]);
        break;
    case TARBUCKET_STRING:
        print_hex(text + p, q);
        break;
    case TARBUCKET_UNARY:
        printf(" %s", unary[p]);
        break;
    case TARBUCKET_BINARY:
        printf(" %s", binary[p]);
        break;
    }
}

struct at {
    uint32_t node, depth;
};

/* Pushes the nodes that a node holds, the first of them last, and returns the new top. */
static size_t push_parts(const uint32_t *tree, const uint32_t *node, uint32_t depth, struct at *stack, size_t top)
{
    const unsigned char *fields = kinds[node[TARBUCKET_NODE_KIND]].fields;
    size_t from = top, to;
    int i;

    for (i = 0; i < 4; i++) {
        uint32_t k = fields[i] < NODE ? TARBUCKET_NONE : node[TARBUCKET_NODE_P + i];
        while (k != TARBUCKET_NONE) {
            stack[top].node = k;
            stack[top++].depth = depth;
            k = fields[i] == LIST ? TARBUCKET_NODE(tree, k)[TARBUCKET_NODE_NEXT] : TARBUCKET_NONE;
        }
    }
    for (to = top; from + 1 < to; from++) {
        struct at kept = stack[from];
        stack[from] = stack[--to];
        stack[to] = kept;
    }
    return top;
}

/* From the root down, with a stack of its own: a sum of many terms is as deep as it is long. A node is pushed at most twice, the middle of a chain of
 * comparisons by the two that hold it. */
static void walk(const uint32_t *tree, const uint8_t *src, const uint8_t *text)
{
    uint32_t nodes = tree[TARBUCKET_HEADER_NODES];
    struct at *stack = take(2 * (size_t)nodes, sizeof *stack);
    unsigned char *seen = take(nodes, 1);
    size_t top = 1;

    stack[0].node = tree[TARBUCKET_HEADER_ROOT];
    stack[0].depth = 0;
    while (top) {
        struct at here = stack[--top];
        const uint32_t *node = TARBUCKET_NODE(tree, here.node);

        if (seen[here.node])
            continue;
        seen[here.node] = 1;
        printf("%*s%" PRIu32 " %s %" PRIu32 " %" PRIu32, 2 * (int)(here.depth < DEEPEST ? here.depth : DEEPEST), "", here.node,
               kinds[node[TARBUCKET_NODE_KIND]].name, node[TARBUCKET_NODE_START], node[TARBUCKET_NODE_END]);
        print_value(node, src, text);
        putchar('\n');
        top = push_parts(tree, node, here.depth + 1, stack, top);
    }
    free(seen);
    free(stack);
}

/* The header, then number and words of each node, none as `-`. */
static void list(const uint32_t *tree)
{
    uint32_t k;
    int i;

    for (i = 0; i < 8; i++)
        printf("%s%" PRIu32, i ? " " : "", tree[i]);
    putchar('\n');
    for (k = 0; k < tree[TARBUCKET_HEADER_NODES]; k++) {
        const uint32_t *node = TARBUCKET_NODE(tree, k);
        printf("%" PRIu32, k);
        for (i = 0; i < 8; i++) {
            int link = i == TARBUCKET_NODE_NEXT || (i >= TARBUCKET_NODE_P && kinds[node[0]].fields[i - TARBUCKET_NODE_P] >= NODE);
            if (link && node[i] == TARBUCKET_NONE)
                fputs(" -", stdout);
            else
                printf(" %" PRIu32, node[i]);
        }
        putchar('\n');
    }
}

static void print_tree(const uint32_t *tree, const uint8_t *src, const uint8_t *text, int listing)
{
    if (tree[TARBUCKET_HEADER_VERSION] != TARBUCKET_VERSION) {
        fputs("the library is of another version than tarbucket.h\n", stderr);
        exit(2);
    }
    if (listing)
        list(tree);
    else
        walk(tree, src, text);
}

int main(int argc, char **argv)
{
    int listing = argc > 1 && !strcmp(argv[1], "--list");
    const char *name = argc > 1 + listing ? argv[1 + listing] : NULL;
    size_t most = listing ? 1023 : TARBUCKET_LONGEST;
    FILE *in = name ? fopen(name, "rb") : stdin;
    uint8_t *src = take(most + 1, 1);
    uint32_t answer[TARBUCKET_ANSWER_WORDS] = {TARBUCKET_TOO_LONG};
    size_t n;

    if (!in) {
        perror(name);
        return 2;
    }
    n = fread(src, 1, most + 1, in);
    if (n <= most) {
        uint32_t *tokens = take(TARBUCKET_TOKENS_WORDS(n), sizeof *tokens);
        uint8_t *text = take(TARBUCKET_TEXT_BYTES(n), 1);
        uint32_t *tree = take(TARBUCKET_TREE_WORDS(n), sizeof *tree);

        tarbucket_parse_source(src, n, tokens, TARBUCKET_TOKENS_WORDS(n), text, TARBUCKET_TEXT_BYTES(n), tree, TARBUCKET_TREE_WORDS(n), answer,
                               TARBUCKET_ANSWER_WORDS);
        if (answer[TARBUCKET_ANSWER_NUMBER] == TARBUCKET_ACCEPTED)
            print_tree(tree, src, text, listing);
        free(tree);
        free(text);
        free(tokens);
    }
    if (answer[TARBUCKET_ANSWER_NUMBER] != TARBUCKET_ACCEPTED)
        printf("no %" PRIu32 " %" PRIu32 "\n", answer[TARBUCKET_ANSWER_NUMBER], answer[TARBUCKET_ANSWER_PLACE]);
    free(src);
    return 0;
}
