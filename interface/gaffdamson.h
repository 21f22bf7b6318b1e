/*
 * Gaffdamson: the graph store of a knitting pattern compiler, for C99 and C++.
 *
 * Link with libgaffdamson.a, which `rt lib` in crates/gaffdamson writes to
 * crates/gaffdamson/out. The functions keep nothing between calls and allocate
 * nothing; of the C library they need memset and the like alone. All that a
 * graph has stands in a buffer of words that the caller lends to each call.
 * docs/STORE.md says what each word of it means, and exactly what each
 * operator does.
 *
 * What a caller must see to:
 *
 * - Each pointer is valid for as many elements as the length beside it says
 *   (elements, not bytes), aligned for its type and not null. For a length of
 *   0 too the pointer must not be null: the address of any object will do.
 * - Each element has been written before: set a new buffer or list to 0 first.
 * - What is lent to one call does not overlap, and nobody else reads or writes
 *   it until the call has returned.
 *
 * Nothing else is required. Every buffer of every length, every operator
 * number and every name gets an answer; a call that is refused changes nothing.
 */
#ifndef GAFFDAMSON_H
#define GAFFDAMSON_H

#include <stddef.h>
#include <stdint.h>

#ifdef __cplusplus
extern "C" {
#endif

/*
 * The buffer: 10 to 12,297 words, with room for C = (length - 4) / 6 tuples,
 * rounded down: 1 to 2,048. UNIVERSE is one of them.
 */
enum {
    GAFFDAMSON_LEAST_LENGTH = 10,
    GAFFDAMSON_MOST_LENGTH = 12297,
    GAFFDAMSON_MOST_RECORDS = 2048
};

/* The words of a buffer that has room for so many tuples. */
#define GAFFDAMSON_WORDS(records) (4 + 6 * (size_t)(records))

/*
 * An answer: its kind, and two words that it carries.
 *
 *   kind                  first                              second
 *   GAFFDAMSON_REFUSAL    the condition that stopped the     0
 *                         call, see below
 *   GAFFDAMSON_NAME       the name of a node or a space;     0
 *                         UNIVERSE is 0
 *   GAFFDAMSON_VALUE      the value; 0 where it is NIL       1 for a number,
 *                                                            0 for NIL
 *   GAFFDAMSON_YES_NO     1 for yes, 0 for no                0
 *   GAFFDAMSON_LIST       k: the first k places of the       0
 *                         lent list are written, the rest
 *                         of it stays
 *   GAFFDAMSON_CAPACITY   the capacity; answered by          0
 *                         gaffdamson_prepare alone
 *   GAFFDAMSON_ADDED      the name                           how many tuples
 *                                                            were added
 *   GAFFDAMSON_REMOVED    the name                           how many tuples
 *                                                            were removed
 *
 * C operators answer ADDED, D operators REMOVED, B operators NAME. The number
 * counts tuples in all spaces: a new node in a numbered space is one there and
 * one in UNIVERSE. It is 0 where nothing changed.
 */
enum {
    GAFFDAMSON_REFUSAL = 0,
    GAFFDAMSON_NAME = 1,
    GAFFDAMSON_VALUE = 2,
    GAFFDAMSON_YES_NO = 3,
    GAFFDAMSON_LIST = 4,
    GAFFDAMSON_CAPACITY = 5,
    GAFFDAMSON_ADDED = 6,
    GAFFDAMSON_REMOVED = 7
};

typedef struct {
    uint32_t kind, first, second;
} gaffdamson_answer;

/*
 * Refusals. The first that applies is answered, and nothing is changed.
 *
 *   1   the buffer is not a store; of gaffdamson_prepare: its length is not
 *       10 to 12,297 words
 *   2   the operator is not 1 to 57
 *   3   a name that is read is 0, or a word above 65,535, which is no name
 *  12   VOP, VIP, VUN, CUS, BUS, VUS, XUS, DUS with no selection; tested here,
 *       after 3 and before 4
 *   4   DUS on UNIVERSE
 *   5   the space is absent (not for CUS, XUS and DUS)
 *   6   node n is absent from the space (COP to SANG, BUN, VUN), or from
 *       UNIVERSE (SUS of a node)
 *   7   node m, where it is read, is absent from the space
 *   8   BOP, BIP, BAP, VOP, VIP: there is no such edge; BAP: neither of the two
 *   9   the list is shorter than k
 *  10   the store is full: the tuples present and those to add exceed C
 */
enum {
    GAFFDAMSON_NOT_A_STORE = 1,
    GAFFDAMSON_NO_OPERATOR = 2,
    GAFFDAMSON_NAME_ZERO = 3,
    GAFFDAMSON_DESTROYS_UNIVERSE = 4,
    GAFFDAMSON_NO_SPACE = 5,
    GAFFDAMSON_NO_FIRST_NODE = 6,
    GAFFDAMSON_NO_SECOND_NODE = 7,
    GAFFDAMSON_NO_EDGE = 8,
    GAFFDAMSON_LIST_TOO_SHORT = 9,
    GAFFDAMSON_FULL = 10,
    GAFFDAMSON_NEEDS_SPACE = 12
};

/*
 * Operators: the fields that each one reads, and what it does. Fields that are
 * not read have no effect. n is the first node, g the edge, m the second node,
 * v the value, s the space.
 *
 * A pair (g, m) of n is outpointing (an edge g from n to m), inpointing (from m
 * to n) or adjacent (either): the middle letter O, I or A chooses. Removing
 * from a numbered space takes what is in it; from UNIVERSE, what is in all
 * spaces.
 */
enum {
    /* n g m s: makes the edge in s and in UNIVERSE; CAP makes both. */
    GAFFDAMSON_COP = 1,
    GAFFDAMSON_CIP = 2,
    GAFFDAMSON_CAP = 3,
    /* n g m v s: sets the edge's value in s; BAP sets whichever are there. */
    GAFFDAMSON_BOP = 4,
    GAFFDAMSON_BIP = 5,
    GAFFDAMSON_BAP = 6,
    /* n g m s: the edge's value in s. */
    GAFFDAMSON_VOP = 7,
    GAFFDAMSON_VIP = 8,
    /* n g m s: is the edge in s? XAP says yes for either direction. */
    GAFFDAMSON_XOP = 9,
    GAFFDAMSON_XIP = 10,
    GAFFDAMSON_XAP = 11,
    /* n g m s: removes the edge. */
    GAFFDAMSON_DOP = 12,
    GAFFDAMSON_DIP = 13,
    GAFFDAMSON_DAP = 14,
    /* n s: removes the edges of all such pairs of n. */
    GAFFDAMSON_DOG = 15,
    GAFFDAMSON_DIG = 16,
    GAFFDAMSON_DAG = 17,
    /* n g s: those with edge g. */
    GAFFDAMSON_DOGG = 18,
    GAFFDAMSON_DIGG = 19,
    GAFFDAMSON_DAGG = 20,
    /* n m s: those with node m. */
    GAFFDAMSON_DOGN = 21,
    GAFFDAMSON_DIGN = 22,
    GAFFDAMSON_DAGN = 23,
    /* n s: removes the nodes of such pairs, each as by DUN. */
    GAFFDAMSON_DON = 24,
    GAFFDAMSON_DIN = 25,
    GAFFDAMSON_DAN = 26,
    /* n g s: only nodes of pairs with edge g. */
    GAFFDAMSON_DONG = 27,
    GAFFDAMSON_DING = 28,
    GAFFDAMSON_DANG = 29,
    /* n s: lists the pairs. */
    GAFFDAMSON_SOP = 30,
    GAFFDAMSON_SIP = 31,
    GAFFDAMSON_SAP = 32,
    /* n s: lists their edges. */
    GAFFDAMSON_SOG = 33,
    GAFFDAMSON_SIG = 34,
    GAFFDAMSON_SAG = 35,
    /* n m s: lists the edges of pairs with node m. */
    GAFFDAMSON_SOGN = 36,
    GAFFDAMSON_SIGN = 37,
    GAFFDAMSON_SAGN = 38,
    /* n s: lists their nodes. */
    GAFFDAMSON_SON = 39,
    GAFFDAMSON_SIN = 40,
    GAFFDAMSON_SAN = 41,
    /* n g s: lists the nodes of pairs with edge g. */
    GAFFDAMSON_SONG = 42,
    GAFFDAMSON_SING = 43,
    GAFFDAMSON_SANG = 44,
    /* n s: makes node n in s and in UNIVERSE. */
    GAFFDAMSON_CUN = 45,
    /* n v s: sets its value in s. */
    GAFFDAMSON_BUN = 46,
    /* n s: its value in s. */
    GAFFDAMSON_VUN = 47,
    /* n s: is it in s? */
    GAFFDAMSON_XUN = 48,
    /* n s: removes it from s, with its edges there. */
    GAFFDAMSON_DUN = 49,
    /* s: lists the nodes of s. */
    GAFFDAMSON_SUN = 50,
    /* s: makes space s. */
    GAFFDAMSON_CUS = 51,
    /* s v: sets its value. */
    GAFFDAMSON_BUS = 52,
    /* s: its value. */
    GAFFDAMSON_VUS = 53,
    /* s: is it there? */
    GAFFDAMSON_XUS = 54,
    /* s: removes s and what it holds. The nodes and edges themselves stay, in
     * UNIVERSE and in other spaces. */
    GAFFDAMSON_DUS = 55,
    /* Lists all spaces, UNIVERSE first, as 0. */
    GAFFDAMSON_SUS = 56,
    /* n: lists the spaces that hold n, UNIVERSE first, as 0. */
    GAFFDAMSON_SUS_OF_NODE = 57
};

/*
 * The form of a call's value: NIL, or (any other number) the value v.
 */
enum {
    GAFFDAMSON_NIL = 0,
    GAFFDAMSON_NUMBER = 1
};

/*
 * The form of a call's space: UNIVERSE, no selection (`-` in a script), or (any
 * other number) the space s. s is read in this last form alone.
 *
 * With no selection the graph is not looked at and 5 to 10 are not tested: C, B
 * and D operators change no word and answer n (C and D with 0 tuples), X
 * operators say no, S operators answer an empty list. V operators and CUS to DUS
 * are refused, 12. Both SUS do not read the space.
 */
enum {
    GAFFDAMSON_UNIVERSE = 0,
    GAFFDAMSON_NUMBERED = 1,
    GAFFDAMSON_NOTHING = 2
};

/*
 * A call. Fields that are left out of a C initializer are 0, which is NIL and
 * UNIVERSE:
 *
 *   gaffdamson_call_words create = {.op = GAFFDAMSON_CUN, .n = 1};
 *
 * Any words are a call. A name has 16 bits; a greater word stands for 0.
 */
typedef struct {
    uint32_t op;            /* the operator; C++ keeps that word for itself */
    uint32_t n, g, m;       /* the first node, the edge, the second node */
    uint32_t value_form, v; /* the value */
    uint32_t space_form, s; /* the space */
} gaffdamson_call_words;

/* A call on UNIVERSE, with NIL. */
static inline gaffdamson_call_words gaffdamson_on_universe(
    uint32_t op, uint32_t n, uint32_t g, uint32_t m) {
    gaffdamson_call_words call = {op, n, g, m, GAFFDAMSON_NIL, 0, GAFFDAMSON_UNIVERSE, 0};
    return call;
}

/* The same call in space s; also the call of CUS to DUS on space s. */
static inline gaffdamson_call_words gaffdamson_in_space(gaffdamson_call_words call, uint32_t s) {
    call.space_form = GAFFDAMSON_NUMBERED;
    call.s = s;
    return call;
}

/* The same call with no selection. */
static inline gaffdamson_call_words gaffdamson_on_nothing(gaffdamson_call_words call) {
    call.space_form = GAFFDAMSON_NOTHING;
    call.s = 0;
    return call;
}

/* The same call with the value v. */
static inline gaffdamson_call_words gaffdamson_with_value(gaffdamson_call_words call, uint32_t v) {
    call.value_form = GAFFDAMSON_NUMBER;
    call.v = v;
    return call;
}

/*
 * One entry of a list, in either of two forms. Lists ascend by edge, then
 * node, and have each entry once. Where nodes or spaces are listed the edge is
 * 0, where edges are listed the node is 0.
 */
typedef struct {
    uint16_t edge;
    uint16_t node;
} gaffdamson_pair;

/* The edge of a packed entry, which is edge * 65,536 + node. */
static inline uint16_t gaffdamson_entry_edge(uint32_t entry) {
    return (uint16_t)(entry >> 16);
}

/* The node or space of a packed entry. */
static inline uint16_t gaffdamson_entry_node(uint32_t entry) {
    return (uint16_t)entry;
}

/*
 * Makes a fresh store of a buffer, with UNIVERSE alone in it, and answers its
 * capacity C; or refusal 1, and then changes nothing. What the buffer held
 * before does not matter.
 */
gaffdamson_answer gaffdamson_prepare(uint32_t *store, size_t store_length);

/* Is the buffer a store? 1 for yes, 0 for no. */
uint32_t gaffdamson_is_store(const uint32_t *store, size_t store_length);

/*
 * Makes one call. The whole buffer is checked first: one that is not a store
 * is refused, 1. A list answer stands in the first k places of the list, as
 * packed entries; 2,048 places are enough for any call.
 */
gaffdamson_answer gaffdamson_call(
    uint32_t *store, size_t store_length,
    gaffdamson_call_words call,
    uint32_t *list, size_t list_length);

/* The same, with a list of pairs. */
gaffdamson_answer gaffdamson_call_pairs(
    uint32_t *store, size_t store_length,
    gaffdamson_call_words call,
    gaffdamson_pair *list, size_t list_length);

/*
 * Makes a whole list of calls, one after the other. The buffer is checked
 * once, before the first.
 *
 *   calls     nine words for each call: the eight of a gaffdamson_call_words, in
 *             their order, then the length of the call's list. There are
 *             calls_length / 9 calls, rounded down; words past the last are
 *             not read.
 *   answers   three words for each call: the kind, first and second of its
 *             answer.
 *   lists     the lists of the calls, one after the other, each with the
 *             length that its call asks for, as packed entries.
 *
 * Gives 0 where every call was made (calls that were refused among them); 1
 * where the buffer is not a store; 9 where the answers have less than three
 * words for each call or the lists fewer places than the calls ask for together.
 * 1 is tested before 9. After 1 or 9 nothing is changed. Words of answers and
 * lists that belong to no call stay.
 */
uint32_t gaffdamson_run(
    uint32_t *store, size_t store_length,
    const uint32_t *calls, size_t calls_length,
    uint32_t *answers, size_t answers_length,
    uint32_t *lists, size_t lists_length);

enum {
    GAFFDAMSON_WORDS_IN_A_CALL = 9,
    GAFFDAMSON_WORDS_IN_AN_ANSWER = 3
};

#ifdef __cplusplus
}
#endif

#endif
