/* sel: instruction selection by tree grammars, in the caller's process. Link libsel.a, which wants malloc, realloc
 * and free. docs/EMBEDDING.md says how to build it.
 *
 * DUTIES of the caller, which nothing checks. What is proved of a call holds where they are kept:
 *  1. A pointer and the length behind it name that many items in one block, readable (`const`) or readable and
 *     writable, for the whole call. Nothing else writes there meanwhile. No two arguments overlap, unless both are
 *     const. With length 0 the pointer may be NULL. Each other pointer is neither NULL nor misaligned.
 *  2. A `struct sel` begins as SEL_NONE. From then on only these calls change it. Moving it is fine; after a copy only
 *     one of the two may be used, and closed once.
 *  3. A `struct sel` is in one call at a time, and stays on the thread that opened it. Each thread has its own.
 *  4. No call from a signal handler, nor in the forked child of a process with threads.
 *  5. malloc, realloc and free are of one allocator, which aligns to 16 (or as a smaller size's own power of two).
 *  6. libsel.a is for x86-64-v2 processors: no call checks that.
 * No call prints, exits, aborts, throws or calls back, and none takes a lock but malloc's. Each returns. */
#ifndef SEL_H
#define SEL_H
#include <stdbool.h>
#include <stddef.h>
#include <stdint.h>
#ifdef __cplusplus
extern "C" {
#endif

/* All but SEL_OK leave what `out` or `rules` points to as it was. */
enum sel_code {
    SEL_OK = 0,
    SEL_NO_COVER = 1,    /* nothing derives the tree from the start symbol */
    SEL_TOO_LONG = 2,    /* the text has more than 1,048,576 bytes. The cost is told */
    SEL_SHORT = 3,       /* there is no room for `needs` items. The cost is told */
    SEL_BAD_GRAMMAR = 4, /* kind, line, column: the text's first fault (docs/GRAMMARS.md) */
    SEL_BAD_FOREST = 5,  /* kind, line, column: the text's first fault (docs/FORESTS.md) */
    SEL_NOT_ONE = 7,     /* the text spells no tree, or more than one */
    SEL_TOO_BIG = 8,     /* a grammar of more than 16 MiB, a line of more than 64 MiB */
    SEL_NO_MEMORY = 9,   /* the handle holds what it held, and may be asked again */
    SEL_IS_OPEN = 10,    /* sel_open: the handle holds a grammar already, and keeps it */
    SEL_IS_CLOSED = 11   /* the handle holds none */
};

/* What belongs to no code is 0. */
struct sel_answer {
    uint32_t code;         /* enum sel_code */
    uint32_t kind;         /* of a fault */
    uint32_t line, column; /* of a fault in a text, from 1; the column counts bytes */
    size_t place;          /* 0: for faults in arrays, of which no call tells yet */
    uint64_t cost;         /* of the best derivation, */
    int64_t ties;          /* and what breaks its ties */
    size_t needs;          /* items written (SEL_OK), or wanted (SEL_SHORT) */
};

/* A selector: a grammar, and what was learned from the trees before. */
struct sel {
    bool full; /* read it, never write it */
    void *at;
};
#define SEL_NONE {false, NULL}

/* Takes up the grammar that the text spells, or a shipped one by its name: @rv64i, @aarch64 or @x86-64. The text is not kept. On a refusal the handle stays as it was. */
struct sel_answer sel_open(struct sel *sel, const uint8_t *text, size_t text_len);

/* Frees what the handle holds, and leaves SEL_NONE. A closed one stays closed. */
void sel_close(struct sel *sel);

/* How many states and transitions may be kept from now on (4,096 and 65,536 after sel_open; at most 32,768 and
 * 1,048,576). What was learned is forgotten. It changes speed and memory, and never an answer. false, and no change:
 * the handle is closed, or that is too many. */
bool sel_room(struct sel *sel, uint32_t states, uint32_t rows);

/* The text of the cheapest cover of the one tree that the line spells, as ASGN(ADD(REG:rbp,CNST:-8),CNST:0):
 * `needs` bytes at the front of `out`, with no 0 behind them. Temporaries are t1, t2, .. in each tree. Asked with
 * out_len 0, SEL_SHORT tells cost and length. */
struct sel_answer sel_line_text(struct sel *sel, const uint8_t *line, size_t line_len, uint8_t *out, size_t out_len);

/* Its rules in preorder, numbered from 1, for a compiler that emits by its own actions: `needs` items of `rules`. */
struct sel_answer sel_line_rules(struct sel *sel, const uint8_t *line, size_t line_len, uint16_t *rules, size_t rules_len);

/* The number of the grammar's operator of this name: their numbers go by the order of %term, from 0. UINT32_MAX: no
 * operator has the name, or the handle is closed. */
uint32_t sel_operator(struct sel *sel, const uint8_t *name, size_t name_len);

/* What the rule of this number, from 1, is called: the number behind its `=` (or UINT32_MAX, where it has none), and
 * where it begins in the grammar's text. false, and no change of `out`: there is no such rule, or the handle is closed. */
struct sel_rule {
    uint32_t external;
    uint32_t line, column; /* from 1; the column counts bytes */
};
bool sel_rule_of(struct sel *sel, uint16_t rule, struct sel_rule *out);

#ifdef __cplusplus
}
#endif
#endif
