// A forecourt's rules, compared. Four rules correct a delivery, each under a condition of its own; two rules whose conditions overlap
// correct the same delivery twice. The conditions are built in a table that is lent to the kernel, and the program prints which pairs
// overlap. Then it takes a reading, and shows what the kernel says to a table that is not sound and to a full one. Every answer is compared with the
// one that it must be; the first that differs ends the program with status 1.
#include "spanwhistle.h"
#include <stdio.h>
#include <stdlib.h>
#include <string.h>

// The variables of this forecourt: two ranges and a boolean.
#define TEMPERATURE 0u
#define MONTH 1u
#define NOZZLE 32u

// Room for 16 nodes and 64 edges: 1,280 bytes of table. The memo may have 1 to 16 sets, and has 4: 256 bytes. Static memory is zero, so the
// table is empty at the start.
#define NODES 16u
#define EDGES 64u
#define SETS 4u
static uint32_t nodes[SPANWHISTLE_NODE_WORDS(NODES)];
static uint32_t children[EDGES];
static int64_t cuts[EDGES];
static uint32_t index_words[SPANWHISTLE_INDEX_WORDS(NODES)];
static uint64_t memo[SPANWHISTLE_MEMO_WORDS(SETS)];
static const spanwhistle_table forecourt = {
    nodes, SPANWHISTLE_NODE_WORDS(NODES), children, EDGES, cuts, EDGES, index_words, SPANWHISTLE_INDEX_WORDS(NODES),
};
#define MEMO memo, SPANWHISTLE_MEMO_WORDS(SETS)

#define RULES 4
static const char *const names[RULES] = {
    "warm, nozzle on",  // temperature at least 15 and the nozzle switch on
    "cold",             // temperature below 15
    "summer",           // June to August
    "winter, nozzle on" // not April to October, and the nozzle switch on
};

// Ends the program where an answer is not the one that it must be. It is no assert(): it stays in every build.
static void must_be(const char *what, uint32_t answered, uint32_t wanted) {
    if (answered != wanted) {
        printf("%s: answered %u, must be %u\n", what, (unsigned)answered, (unsigned)wanted);
        exit(1);
    }
}

static uint32_t both(uint32_t x, uint32_t y) {
    uint32_t id;
    must_be("and", spanwhistle_and(SPANWHISTLE_LENT(forecourt), MEMO, x, y, &id), SPANWHISTLE_DONE);
    return id;
}

// "The month is first to last", both included.
static uint32_t months(int32_t first, int32_t last) {
    uint32_t id;
    must_be("from_range",
            spanwhistle_from_range(SPANWHISTLE_LENT(forecourt), MONTH, SPANWHISTLE_INCLUDES, first, SPANWHISTLE_INCLUDES, last, &id),
            SPANWHISTLE_DONE);
    return id;
}

static void build(uint32_t rules[RULES]) {
    uint32_t warm, nozzle;
    must_be("greater_equal", spanwhistle_greater_equal(SPANWHISTLE_LENT(forecourt), TEMPERATURE, 15, &warm), SPANWHISTLE_DONE);
    must_be("from_bool", spanwhistle_from_bool(SPANWHISTLE_LENT(forecourt), NOZZLE, &nozzle), SPANWHISTLE_DONE);
    rules[0] = both(warm, nozzle);
    must_be("less_than", spanwhistle_less_than(SPANWHISTLE_LENT(forecourt), TEMPERATURE, 15, &rules[1]), SPANWHISTLE_DONE);
    must_be("below 15 is the opposite of at least 15", rules[1], spanwhistle_not(warm));
    rules[2] = months(6, 8);
    rules[3] = both(spanwhistle_not(months(4, 10)), nozzle);
}

// Prints each pair of rules that overlap. By the conditions above, apart are: warm and cold, summer and winter. The other four overlap.
static void compare(const uint32_t rules[RULES]) {
    static const uint32_t apart[RULES][RULES] = {{0, 1, 0, 0}, {1, 0, 0, 0}, {0, 0, 0, 1}, {0, 0, 1, 0}};
    for (size_t i = 0; i < RULES; i++) {
        for (size_t k = i + 1; k < RULES; k++) {
            uint32_t yes;
            must_be("is_disjoint", spanwhistle_is_disjoint(SPANWHISTLE_LENT(forecourt), rules[i], rules[k], &yes), SPANWHISTLE_DONE);
            printf("%s / %s: %s\n", names[i], names[k], yes ? "apart" : "OVERLAP");
            must_be("apart", yes, apart[i][k]);
        }
    }
}

// One delivery: more than 15 and less than 16 degrees, in July, with the nozzle switch on. So rules 0 and 2 correct it, and no other.
static void deliver(const uint32_t rules[RULES]) {
    static const uint32_t holds[RULES] = {1, 0, 1, 0};
    int64_t places[SPANWHISTLE_RANGE_VARIABLES] = {0};
    const uint32_t bools = UINT32_C(1) << (NOZZLE - SPANWHISTLE_RANGE_VARIABLES);
    places[TEMPERATURE] = SPANWHISTLE_PLACE_ABOVE(15);
    places[MONTH] = SPANWHISTLE_PLACE(7);
    for (size_t i = 0; i < RULES; i++) {
        uint32_t yes;
        must_be("evaluate",
                spanwhistle_evaluate(SPANWHISTLE_LENT(forecourt), places, SPANWHISTLE_RANGE_VARIABLES, bools, rules[i], &yes),
                SPANWHISTLE_DONE);
        printf("a delivery between 15 and 16 degrees in July, nozzle on, is corrected by '%s': %s\n", names[i], yes ? "yes" : "no");
        must_be("corrected", yes, holds[i]);
    }
}

// A comparison and its opposite are one node, seen two ways: their ids differ in the lowest bit.
static void oppose(void) {
    uint32_t id, other;
    must_be("less_equal", spanwhistle_less_equal(SPANWHISTLE_LENT(forecourt), TEMPERATURE, 15, &id), SPANWHISTLE_DONE);
    must_be("greater_than", spanwhistle_greater_than(SPANWHISTLE_LENT(forecourt), TEMPERATURE, 15, &other), SPANWHISTLE_DONE);
    must_be("above 15 is the opposite of at most 15", other, spanwhistle_not(id));
    must_be("equal", spanwhistle_equal(SPANWHISTLE_LENT(forecourt), TEMPERATURE, 15, &id), SPANWHISTLE_DONE);
    must_be("not_equal", spanwhistle_not_equal(SPANWHISTLE_LENT(forecourt), TEMPERATURE, 15, &other), SPANWHISTLE_DONE);
    must_be("not 15 is the opposite of 15", other, spanwhistle_not(id));
}

// One bit of one word is turned, as a bad cell of memory would: the next call says 2, with FALSE as its id. Then the bit is turned back.
static void damage(const uint32_t rules[RULES]) {
    uint32_t id, number;
    cuts[0] ^= 4;
    number = spanwhistle_and(SPANWHISTLE_LENT(forecourt), MEMO, rules[0], rules[2], &id);
    printf("a word changed: %s\n", spanwhistle_name(number));
    must_be("a word changed", number, SPANWHISTLE_NOT_SOUND);
    must_be("the id beside a refusal", id, SPANWHISTLE_FALSE);
    cuts[0] ^= 4;
}

// Conditions on the temperature are added until there is no room. The call that says 6 leaves every record as it was, and a condition that
// is there already is still found.
static void fill(void) {
    uint32_t before[SPANWHISTLE_NODE_WORDS(NODES)];
    uint32_t below_16, again, id, number;
    size_t used_nodes, used_edges;
    number = spanwhistle_less_than(SPANWHISTLE_LENT(forecourt), TEMPERATURE, 16, &below_16);
    for (int32_t key = 17; number == SPANWHISTLE_DONE; key++) {
        memcpy(before, nodes, sizeof before);
        number = spanwhistle_less_than(SPANWHISTLE_LENT(forecourt), TEMPERATURE, key, &id);
    }
    printf("a full table: %s\n", spanwhistle_name(number));
    must_be("full", number, SPANWHISTLE_NO_ROOM);
    must_be("the id beside a refusal", id, SPANWHISTLE_FALSE);
    must_be("records as found", memcmp(before, nodes, sizeof before) == 0, 1);
    must_be("check", spanwhistle_check(SPANWHISTLE_LENT(forecourt), &used_nodes, &used_edges), SPANWHISTLE_DONE);
    must_be("used nodes", (uint32_t)used_nodes, NODES);
    must_be("less_than", spanwhistle_less_than(SPANWHISTLE_LENT(forecourt), TEMPERATURE, 16, &again), SPANWHISTLE_DONE);
    must_be("found in the full table", again, below_16);
}

int main(void) {
    uint32_t rules[RULES];
    build(rules);
    compare(rules);
    deliver(rules);
    oppose();
    damage(rules);
    fill();
    return 0;
}
