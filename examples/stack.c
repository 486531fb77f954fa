// How much stack does a call of the kernel take? Runs each kind of call on conditions over 2 to 64 variables, on a stack of its own that
// was painted, and looks how far the paint is gone. Ends with status 1 where a call took more than spanwhistle.h says for so many variables.
// It shows what these calls took with this compiler on this machine, and not that no call takes more. A figure has the frame of the calling
// function in it.
#define _XOPEN_SOURCE 600
#include "spanwhistle.h"
#include <stdio.h>
#include <stdlib.h>
#include <string.h>
#include <ucontext.h>

#define ROOM 512u
#define EDGES 2048u
#define PAINT 0xA5

static uint32_t nodes[SPANWHISTLE_NODE_WORDS(ROOM)], children[EDGES], index_words[SPANWHISTLE_INDEX_WORDS(ROOM)];
static uint64_t memo[SPANWHISTLE_MEMO_WORDS(ROOM)];
static int64_t cuts[EDGES], places[SPANWHISTLE_RANGE_VARIABLES];
#define LENT nodes, SPANWHISTLE_NODE_WORDS(ROOM), children, EDGES, cuts, EDGES, index_words, SPANWHISTLE_INDEX_WORDS(ROOM)
#define MEMO memo, SPANWHISTLE_MEMO_WORDS(ROOM)

// Two conditions that no opening test settles at any variable but the last; the last variable of each kind that they test; and what a
// measured call returned and wrote.
static uint32_t x, y, last_range, last_boolean, number, answer;
static size_t used_nodes, used_edges;
static unsigned char stack[1 << 20];
static void must_be_done(const char *what, uint32_t told) {
    if (told != SPANWHISTLE_DONE) {
        printf("%s: %s\n", what, spanwhistle_name(told));
        exit(1);
    }
}

static uint32_t both(uint32_t a, uint32_t b) {
    uint32_t id;
    must_be_done("and", spanwhistle_and(LENT, MEMO, a, b, &id));
    return id;
}

// Conditions over so many variables: ranges as far as there are, since they take the most, and at least one boolean. Booleans, last first: x
// says that all are yes, y that an odd number is. Then ranges, last first: each below 0 for x, below 1 for y.
static void build(uint32_t variables) {
    uint32_t ranges = variables - 1 < SPANWHISTLE_RANGE_VARIABLES ? variables - 1 : SPANWHISTLE_RANGE_VARIABLES;
    uint32_t variable, a, b;
    last_range = ranges - 1;
    last_boolean = SPANWHISTLE_RANGE_VARIABLES + (variables - ranges) - 1;
    x = SPANWHISTLE_TRUE;
    y = SPANWHISTLE_FALSE;
    must_be_done("fresh", spanwhistle_fresh(LENT));
    for (variable = last_boolean + 1; variable-- > SPANWHISTLE_RANGE_VARIABLES;) {
        must_be_done("from_bool", spanwhistle_from_bool(LENT, variable, &a));
        must_be_done("or", spanwhistle_or(LENT, MEMO, a, y, &b));
        x = both(a, x);
        y = both(b, spanwhistle_not(both(a, y)));
    }
    for (variable = ranges; variable-- > 0;) {
        must_be_done("less_than", spanwhistle_less_than(LENT, variable, 0, &a));
        must_be_done("less_than", spanwhistle_less_than(LENT, variable, 1, &b));
        x = both(a, x);
        y = both(b, y);
    }
    // Three edges, for which the kernel calls memcpy: so it is bound already when calls are measured, which takes stack of its own.
    must_be_done("from_range", spanwhistle_from_range(LENT, 0, SPANWHISTLE_INCLUDES, 2, SPANWHISTLE_INCLUDES, 3, &a));
}

// The calls that are measured.
#define CALL(name, ...) \
    static void call_##name(void) { number = spanwhistle_##name(__VA_ARGS__); }
CALL(and, LENT, MEMO, x, y, &answer)
CALL(or, LENT, MEMO, x, y, &answer)
CALL(restrict, LENT, MEMO, y, last_boolean, 1, &answer)
CALL(narrow, LENT, MEMO, y, last_range, SPANWHISTLE_INCLUDES, 0, SPANWHISTLE_INCLUDES, 5, &answer)
CALL(widen, LENT, MEMO, y, last_range, SPANWHISTLE_INCLUDES, -5, SPANWHISTLE_INCLUDES, 5, &answer)
// y or its negation, whichever is odd: two even ids meet, and no walk is needed.
CALL(is_disjoint, LENT, x, y | 1u, &answer)
CALL(equal, LENT, 0, 7, &answer)
CALL(from_range, LENT, 0, SPANWHISTLE_INCLUDES, 7, SPANWHISTLE_EXCLUDES, 9, &answer)
CALL(evaluate, LENT, places, SPANWHISTLE_RANGE_VARIABLES, 0, y, &answer)
CALL(check, LENT, &used_nodes, &used_edges)
CALL(fresh, LENT)
CALL(from_bool, LENT, last_boolean, &answer)

// What to run, in this order, and how much the header says is enough for all 64 variables and for each: from_bool stands behind fresh, so that
// it makes its node.
static const struct {
    const char *name;
    void (*call)(void);
    size_t enough, base, each;
} calls[] = {
    {"and", call_and, SPANWHISTLE_STACK_JOIN, SPANWHISTLE_STACK_JOIN_OF(0), SPANWHISTLE_STACK_JOIN_OF(1)},
    {"or", call_or, SPANWHISTLE_STACK_JOIN, SPANWHISTLE_STACK_JOIN_OF(0), SPANWHISTLE_STACK_JOIN_OF(1)},
    {"restrict", call_restrict, SPANWHISTLE_STACK_RESTRICT, SPANWHISTLE_STACK_RESTRICT_OF(0), SPANWHISTLE_STACK_RESTRICT_OF(1)},
    {"narrow", call_narrow, SPANWHISTLE_STACK_NARROW, SPANWHISTLE_STACK_NARROW_OF(0), SPANWHISTLE_STACK_NARROW_OF(1)},
    {"widen", call_widen, SPANWHISTLE_STACK_NARROW, SPANWHISTLE_STACK_NARROW_OF(0), SPANWHISTLE_STACK_NARROW_OF(1)},
    {"is_disjoint", call_is_disjoint, SPANWHISTLE_STACK_DISJOINT, SPANWHISTLE_STACK_DISJOINT_OF(0), SPANWHISTLE_STACK_DISJOINT_OF(1)},
    {"equal", call_equal, SPANWHISTLE_STACK_CONDITION, SPANWHISTLE_STACK_CONDITION, SPANWHISTLE_STACK_CONDITION},
    {"from_range", call_from_range, SPANWHISTLE_STACK_CONDITION, SPANWHISTLE_STACK_CONDITION, SPANWHISTLE_STACK_CONDITION},
    {"evaluate", call_evaluate, SPANWHISTLE_STACK_READ, SPANWHISTLE_STACK_READ, SPANWHISTLE_STACK_READ},
    {"check", call_check, SPANWHISTLE_STACK_READ, SPANWHISTLE_STACK_READ, SPANWHISTLE_STACK_READ},
    {"fresh", call_fresh, SPANWHISTLE_STACK_READ, SPANWHISTLE_STACK_READ, SPANWHISTLE_STACK_READ},
    {"from_bool", call_from_bool, SPANWHISTLE_STACK_CONDITION, SPANWHISTLE_STACK_CONDITION, SPANWHISTLE_STACK_CONDITION},
};
#define CALLS (sizeof calls / sizeof calls[0])

// The bytes that a call wrote of a painted stack, from its top to the last one that is not paint.
static size_t stack_of(void (*call)(void)) {
    static ucontext_t here, there;
    size_t kept = 0;
    memset(stack, PAINT, sizeof stack);
    must_be_done("getcontext", (uint32_t)getcontext(&there)); // 0 is done here too
    there.uc_stack.ss_sp = stack;
    there.uc_stack.ss_size = sizeof stack;
    there.uc_link = &here;
    makecontext(&there, call, 0);
    must_be_done("swapcontext", (uint32_t)swapcontext(&here, &there));
    while (kept < sizeof stack && stack[kept] == PAINT)
        kept++;
    return sizeof stack - kept;
}

int main(void) {
    static const uint32_t counts[] = {2, 4, 8, 16, 32, 33, 48, 64};
    int status = 0;
    for (size_t k = 0; k < sizeof counts / sizeof counts[0]; k++) {
        build(counts[k]);
        for (size_t i = 0; i < CALLS; i++) {
            size_t enough = calls[i].base + counts[k] * (calls[i].each - calls[i].base);
            size_t took = stack_of(calls[i].call);
            must_be_done(calls[i].name, number);
            enough = enough < calls[i].enough ? enough : calls[i].enough;
            printf("%-12s %7zu bytes of stack, of %zu, for %u variables\n", calls[i].name, took, enough, (unsigned)counts[k]);
            status |= took > enough;
        }
    }
    return status;
}
