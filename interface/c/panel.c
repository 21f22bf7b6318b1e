/*
 * Builds a small panel with two needle selections, the second of them empty,
 * prints the answer to each call and then what the selections hold, and a row
 * without one.
 */
#include "gaffdamson.h"

#include <inttypes.h>
#include <stdio.h>

enum { RECORDS = 32, PLACES = 32 };

static uint32_t store[GAFFDAMSON_WORDS(RECORDS)];

typedef struct {
    const char *what;
    gaffdamson_call_words call;
} step;

/* The space of a call: selection s. A call without it is on UNIVERSE. */
#define SELECTION(number) .space_form = GAFFDAMSON_NUMBERED, .s = (number)

/* The value of a call. */
#define LENGTH(number) .value_form = GAFFDAMSON_NUMBER, .v = (number)

static const step building[] = {
    {"make selection 1", {.op = GAFFDAMSON_CUS, SELECTION(1)}},
    {"make selection 2", {.op = GAFFDAMSON_CUS, SELECTION(2)}},
    {"make loop 1 in selection 1", {.op = GAFFDAMSON_CUN, .n = 1, SELECTION(1)}},
    {"make loop 2 in selection 1", {.op = GAFFDAMSON_CUN, .n = 2, SELECTION(1)}},
    {"make loop 3", {.op = GAFFDAMSON_CUN, .n = 3}},
    {"run yarn 7 from loop 1 to loop 2 in selection 1",
     {.op = GAFFDAMSON_COP, .n = 1, .g = 7, .m = 2, SELECTION(1)}},
    {"run yarn 7 from loop 2 to loop 3", {.op = GAFFDAMSON_COP, .n = 2, .g = 7, .m = 3}},
    {"set its length from loop 1 to loop 2 in selection 1 to 60",
     {.op = GAFFDAMSON_BOP, .n = 1, .g = 7, .m = 2, LENGTH(60), SELECTION(1)}},
    {"look for loop 3 in selection 1", {.op = GAFFDAMSON_XUN, .n = 3, SELECTION(1)}},
    {"make loop 4 in selection 3, which is absent",
     {.op = GAFFDAMSON_CUN, .n = 4, SELECTION(3)}},
    {"make loop 4", {.op = GAFFDAMSON_CUN, .n = 4}},
    {"remove loop 4", {.op = GAFFDAMSON_DUN, .n = 4}},
};

static gaffdamson_answer make(gaffdamson_call_words call, uint32_t list[PLACES]) {
    return gaffdamson_call(store, sizeof store / sizeof store[0], call, list, PLACES);
}

static void print_answer(gaffdamson_answer answer) {
    uint32_t first = answer.first, second = answer.second;
    switch (answer.kind) {
    case GAFFDAMSON_REFUSAL: printf("refused, %" PRIu32 "\n", first); break;
    case GAFFDAMSON_NAME: printf("name %" PRIu32 "\n", first); break;
    case GAFFDAMSON_ADDED: printf("name %" PRIu32 ", %" PRIu32 " added\n", first, second); break;
    case GAFFDAMSON_REMOVED: printf("name %" PRIu32 ", %" PRIu32 " removed\n", first, second); break;
    case GAFFDAMSON_VALUE:
        if (second) {
            printf("value %" PRIu32 "\n", first);
        } else {
            printf("no value\n");
        }
        break;
    case GAFFDAMSON_YES_NO: printf("%s\n", first ? "yes" : "no"); break;
    case GAFFDAMSON_LIST: printf("list of %" PRIu32 "\n", first); break;
    case GAFFDAMSON_CAPACITY: printf("room for %" PRIu32 " tuples\n", first); break;
    }
}

/* The entries of a list; none where the call is refused. */
static uint32_t entries_of(gaffdamson_call_words call, uint32_t list[PLACES]) {
    gaffdamson_answer answer = make(call, list);
    return answer.kind == GAFFDAMSON_LIST ? answer.first : 0;
}

/* A call in the same space as another one. */
static gaffdamson_call_words beside(
    gaffdamson_call_words other, uint32_t op, uint32_t n, uint32_t g, uint32_t m) {
    gaffdamson_call_words call = gaffdamson_on_universe(op, n, g, m);
    call.space_form = other.space_form;
    call.s = other.s;
    return call;
}

/* The yarn that leaves a loop, with its length in the same space. */
static void print_yarn(uint32_t loop, gaffdamson_call_words loops) {
    uint32_t pairs[PLACES] = {0}, none[PLACES] = {0};
    uint32_t count = entries_of(beside(loops, GAFFDAMSON_SOP, loop, 0, 0), pairs);
    for (uint32_t i = 0; i < count; i++) {
        uint16_t yarn = gaffdamson_entry_edge(pairs[i]);
        uint16_t to = gaffdamson_entry_node(pairs[i]);
        gaffdamson_answer length = make(beside(loops, GAFFDAMSON_VOP, loop, yarn, to), none);
        printf("  yarn %" PRIu16 " from loop %" PRIu32 " to loop %" PRIu16, yarn, loop, to);
        if (length.kind == GAFFDAMSON_VALUE && length.second) {
            printf(", length %" PRIu32, length.first);
        }
        printf("\n");
    }
}

/* The loops that a call of SUN lists, and the yarn that leaves them. */
static void print_space(const char *title, gaffdamson_call_words call) {
    uint32_t loops[PLACES] = {0};
    uint32_t count = entries_of(call, loops);
    printf(count == 0 ? "%s: no loops" : "%s: loops", title);
    for (uint32_t i = 0; i < count; i++) {
        printf(" %" PRIu16, gaffdamson_entry_node(loops[i]));
    }
    printf("\n");
    for (uint32_t i = 0; i < count; i++) {
        print_yarn(gaffdamson_entry_node(loops[i]), call);
    }
}

int main(void) {
    uint32_t list[PLACES] = {0};
    printf("prepare: ");
    print_answer(gaffdamson_prepare(store, sizeof store / sizeof store[0]));
    for (size_t i = 0; i < sizeof building / sizeof building[0]; i++) {
        printf("%s: ", building[i].what);
        print_answer(make(building[i].call, list));
    }
    printf("\n");
    gaffdamson_call_words loops = gaffdamson_on_universe(GAFFDAMSON_SUN, 0, 0, 0);
    print_space("selection 1", gaffdamson_in_space(loops, 1));
    print_space("selection 2", gaffdamson_in_space(loops, 2));
    print_space("a row with no selection", gaffdamson_on_nothing(loops));
    print_space("the whole panel", loops);
    return 0;
}
