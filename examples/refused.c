// What stands beside a refusal? Every call that can be refused is made in wrong forms for each refusal that spanwhistle.h names of it, one thing
// wrong at a time. Looked at are the number, the out-parameters, which held something else before, and every word that was lent, also those
// behind a length: the table, the memo and the places. After each refusal the same call with nothing wrong must be done, in room for just what it
// adds, so that the refusal comes of that one thing. What must be is written here by hand, from the header's words, and is asked of no call.
// Ends with status 1 at the first difference.
#include "spanwhistle.h"
#include <stdio.h>
#include <stdlib.h>
#include <string.h>

#define TEMPERATURE 0u
#define MONTH 1u
#define NOZZLE 32u
#define TANK 33u
#define LAMP 34u // no condition of the table tests it

// The table that is lent has these ids and no other. Node n has id 2 * (n + 1); the id of its opposite is one more. Even is the one that says
// yes at the lowest places with every boolean yes (docs/LAYOUT.md; docs/PROMISES.md, theorem 7).
#define TANK_YES 2u
#define NOZZLE_ON 4u
#define NOZZLE_OFF 5u
#define BOTH_YES 6u
#define SUMMER 9u
#define SUMMER_BOTH 11u
#define COLD 12u
#define ALL 15u // cold, in summer, both yes
#define NOT_ALL 14u
#define UNKNOWN 16u // what the next node would have
#define USED_NODES 7u
#define USED_EDGES 16u

// Room for the most that a call adds, and a word behind every length that is lent, so that one word too many is still ours.
#define ROOM (USED_NODES + 3u)
#define EDGES (USED_EDGES + 7u)
#define SETS 2u
static struct lent {
    int64_t cuts[EDGES + 1], places[SPANWHISTLE_RANGE_VARIABLES + 1];
    uint64_t memo[SPANWHISTLE_MEMO_WORDS(ROOM + 1) + 1];
    uint32_t nodes[SPANWHISTLE_NODE_WORDS(ROOM) + 1], children[EDGES + 1], index_words[SPANWHISTLE_INDEX_WORDS(ROOM) + 1];
} lent, must;

// What a call is asked, beside the words.
static spanwhistle_table table;
static size_t memo_len, places_len;
static uint32_t x, y, variable;

// What a call wrote. It is called with values in it that are no answer.
struct told {
    uint32_t id, yes;
    size_t nodes, edges;
};
#define NO_ANSWER 0xA5A5A5A5u
static const struct told untold = {NO_ANSWER, NO_ANSWER, NO_ANSWER, NO_ANSWER};
static struct told told;

// Which call in which form: for the line that says what was wrong.
static const char *call_name = "fresh", *form = "to begin with";

static void must_be(const char *what, size_t is, size_t wanted) {
    if (is != wanted) {
        printf("%s, %s: %s is %zu, must be %zu\n", call_name, form, what, is, wanted);
        exit(1);
    }
}

static void must_be_words(const char *what, const void *is, const void *wanted, size_t bytes) {
    if (memcmp(is, wanted, bytes) != 0) {
        printf("%s, %s: a word of %s is not as it must be\n", call_name, form, what);
        exit(1);
    }
}

// ---- The calls, each with nothing wrong unless something was made wrong before ----

#define LENT SPANWHISTLE_LENT(table)
#define MEMO lent.memo, memo_len
#define CALL(name, ...) \
    static uint32_t call_##name(void) { return spanwhistle_##name(__VA_ARGS__); }
CALL(fresh, LENT)
CALL(check, LENT, &told.nodes, &told.edges)
CALL(evaluate, LENT, lent.places, places_len, 3, x, &told.yes)
CALL(equal, LENT, variable, 20, &told.id)
CALL(not_equal, LENT, variable, 20, &told.id)
CALL(less_than, LENT, variable, 20, &told.id)
CALL(less_equal, LENT, variable, 20, &told.id)
CALL(greater_than, LENT, variable, 20, &told.id)
CALL(greater_equal, LENT, variable, 20, &told.id)
CALL(from_range, LENT, variable, SPANWHISTLE_INCLUDES, 16, SPANWHISTLE_EXCLUDES, 20, &told.id)
CALL(from_bool, LENT, variable, &told.id)
CALL(and, LENT, MEMO, x, y, &told.id)
CALL(or, LENT, MEMO, x, y, &told.id)
CALL(is_disjoint, LENT, x, y, &told.yes)
CALL(restrict, LENT, MEMO, x, variable, 1, &told.id)
CALL(narrow, LENT, MEMO, x, variable, SPANWHISTLE_OPEN, 0, SPANWHISTLE_INCLUDES, 7, &told.id)
CALL(widen, LENT, MEMO, x, variable, SPANWHISTLE_INCLUDES, 7, SPANWHISTLE_OPEN, 0, &told.id)

// What a call takes, of which something can be wrong. All take a table's lengths.
enum {
    LENGTHS = 0,
    WORDS = 1,
    A_MEMO = 2,
    PLACES = 4,
    X = 8,
    Y = 16,
    VARIABLE = 32,
    RANGE = 64 | VARIABLE,
    BOOLEAN = 128 | VARIABLE,
    ADDS = 256 // it can want room
};
// What it writes to, beside the table.
enum out { NOTHING, ID, YES, COUNTS };

// A row a call: the refusals that the header names; what it takes; what it is given; the nodes and edges that it adds; and its answer.
static const struct call {
    const char *name;
    uint32_t (*call)(void);
    const char *refusals;
    unsigned takes;
    uint32_t x, y, variable;
    size_t nodes, edges;
    enum out out;
    uint32_t answer;
} calls[] = {
    {"fresh", call_fresh, "1", LENGTHS, 0, 0, 0, 0, 0, NOTHING, 0},
    {"check", call_check, "1 2", WORDS, 0, 0, 0, 0, 0, COUNTS, 0},
    {"evaluate", call_evaluate, "1 2 3 5", WORDS | PLACES | X, ALL, 0, 0, 0, 0, YES, 1},
    // A node of two edges where the temperature is cut once, of three where it is cut twice.
    {"equal", call_equal, "1 2 4 6", WORDS | RANGE | ADDS, 0, 0, TEMPERATURE, 1, 3, ID, 17},
    {"not_equal", call_not_equal, "1 2 4 6", WORDS | RANGE | ADDS, 0, 0, TEMPERATURE, 1, 3, ID, 16},
    {"less_than", call_less_than, "1 2 4 6", WORDS | RANGE | ADDS, 0, 0, TEMPERATURE, 1, 2, ID, 16},
    {"less_equal", call_less_equal, "1 2 4 6", WORDS | RANGE | ADDS, 0, 0, TEMPERATURE, 1, 2, ID, 16},
    {"greater_than", call_greater_than, "1 2 4 6", WORDS | RANGE | ADDS, 0, 0, TEMPERATURE, 1, 2, ID, 17},
    {"greater_equal", call_greater_equal, "1 2 4 6", WORDS | RANGE | ADDS, 0, 0, TEMPERATURE, 1, 2, ID, 17},
    {"from_range", call_from_range, "1 2 4 6", WORDS | RANGE | ADDS, 0, 0, TEMPERATURE, 1, 3, ID, 17},
    {"from_bool", call_from_bool, "1 2 4 6", WORDS | BOOLEAN | ADDS, 0, 0, LAMP, 1, 2, ID, 16},
    // More nodes than one, the answer last: where there is no room for that one, the others have to be taken back. By nozzle, month, temperature:
    {"and", call_and, "1 2 3 6", WORDS | A_MEMO | X | Y | ADDS, NOT_ALL, NOZZLE_ON, 0, 3, 2 + 3 + 2, ID, 20},
    {"or", call_or, "1 2 3 6", WORDS | A_MEMO | X | Y | ADDS, ALL, NOZZLE_OFF, 0, 3, 2 + 3 + 2, ID, 21},
    {"is_disjoint", call_is_disjoint, "1 2 3", WORDS | X | Y, ALL, NOZZLE_OFF, 0, 0, 0, YES, 1},
    // By month and temperature. Narrowed to July at most, the month is cut once; widened to July at least, it is cut twice still.
    {"restrict", call_restrict, "1 2 3 4 6", WORDS | A_MEMO | X | VARIABLE | ADDS, ALL, 0, TANK, 2, 3 + 2, ID, 19},
    {"narrow", call_narrow, "1 2 3 4 6", WORDS | A_MEMO | X | RANGE | ADDS, ALL, 0, MONTH, 2, 2 + 2, ID, 19},
    {"widen", call_widen, "1 2 3 4 6", WORDS | A_MEMO | X | RANGE | ADDS, ALL, 0, MONTH, 2, 3 + 2, ID, 19},
};
#define CALLS (sizeof calls / sizeof calls[0])

// ---- What is lent ----

// Builds the table in such room. All else that it holds is words that say nothing, also those of the memo.
static void lend(size_t room, size_t edges) {
    uint32_t id;
    memset(&lent, 0xA5, sizeof lent);
    table.nodes = lent.nodes;
    table.nodes_len = SPANWHISTLE_NODE_WORDS(room);
    table.children = lent.children;
    table.children_len = edges;
    table.cuts = lent.cuts;
    table.cuts_len = edges;
    table.index = lent.index_words;
    table.index_len = SPANWHISTLE_INDEX_WORDS(room);
    memo_len = SPANWHISTLE_MEMO_WORDS(SETS);
    must_be("the number of fresh", spanwhistle_fresh(LENT), SPANWHISTLE_DONE);
#define BUILD(name, wanted, ...)                                                                    \
    (must_be("the number of " #name, spanwhistle_##name(LENT, __VA_ARGS__, &id), SPANWHISTLE_DONE), \
     must_be("the id of " #name, id, wanted))
    BUILD(from_bool, TANK_YES, TANK);
    BUILD(from_bool, NOZZLE_ON, NOZZLE);
    BUILD(and, BOTH_YES, MEMO, TANK_YES, NOZZLE_ON);
    BUILD(from_range, SUMMER, MONTH, SPANWHISTLE_INCLUDES, 6, SPANWHISTLE_INCLUDES, 8);
    BUILD(and, SUMMER_BOTH, MEMO, SUMMER, BOTH_YES);
    BUILD(less_than, COLD, TEMPERATURE, 15);
    BUILD(and, ALL, MEMO, COLD, SUMMER_BOTH);
    memset(lent.memo, 0xA5, sizeof lent.memo);
}

// All that a call is asked, with nothing wrong: room for what it adds and no more, and 10 degrees, between June and July.
static void ask(const struct call *c) {
    lend(USED_NODES + c->nodes, USED_EDGES + c->edges);
    memset(lent.places, 0, sizeof lent.places);
    lent.places[TEMPERATURE] = SPANWHISTLE_PLACE(10);
    lent.places[MONTH] = SPANWHISTLE_PLACE_ABOVE(6);
    places_len = SPANWHISTLE_RANGE_VARIABLES;
    x = c->x;
    y = c->y;
    variable = c->variable;
    told = untold;
}

// ---- What can be wrong, in the order of the refusals ----

#define WRONG(name, ...) \
    static void wrong_##name(void) { __VA_ARGS__; }
WRONG(nodes_short, table.nodes_len -= 1)
WRONG(nodes_long, table.nodes_len += 1)
WRONG(children_short, table.children_len -= 1)
WRONG(children_long, table.children_len += 1)
WRONG(cuts_short, table.cuts_len -= 1)
WRONG(cuts_long, table.cuts_len += 1)
WRONG(index_short, table.index_len -= 1)
WRONG(index_long, table.index_len += 1)
WRONG(no_node, table.nodes_len = table.index_len = 0)
WRONG(one_edge, table.children_len = table.cuts_len = SPANWHISTLE_LEAST_EDGES - 1)
WRONG(memo_empty, memo_len = 0)
WRONG(memo_short, memo_len -= 1)
WRONG(memo_long, memo_len += 1)
WRONG(memo_more, memo_len = SPANWHISTLE_MEMO_WORDS(table.nodes_len / 4 + 1))
WRONG(places_short, places_len -= 1)
WRONG(places_long, places_len += 1)
WRONG(node, lent.nodes[3] ^= 1)     // a record's spare word, which is 0
WRONG(child, lent.children[0] ^= 1) // both edges of the node lead to FALSE
WRONG(cut, lent.cuts[0] ^= 1)       // a boolean has none
WRONG(index, lent.index_words[0] ^= 1)
WRONG(x, x = UNKNOWN)
WRONG(y, y = UNKNOWN)
WRONG(not_range, variable = SPANWHISTLE_RANGE_VARIABLES)
WRONG(not_boolean, variable = SPANWHISTLE_RANGE_VARIABLES - 1)
WRONG(variable, variable = SPANWHISTLE_VARIABLES)
WRONG(place_low, lent.places[0] = SPANWHISTLE_LOWEST_PLACE - 1)
WRONG(place_high, lent.places[SPANWHISTLE_RANGE_VARIABLES - 1] = SPANWHISTLE_HIGHEST_PLACE + 1)
WRONG(room_nodes, lend(table.nodes_len / 4 - 1, table.children_len))
WRONG(room_edges, lend(table.nodes_len / 4, table.children_len - 1))

// A row a form: what the call has to take for it to be one.
static const struct wrong {
    uint32_t refusal;
    unsigned takes;
    void (*make)(void);
    const char *form;
} wrongs[] = {
    {1, LENGTHS, wrong_nodes_short, "nodes a word short"},
    {1, LENGTHS, wrong_nodes_long, "nodes a word long"},
    {1, LENGTHS, wrong_children_short, "children a word short"},
    {1, LENGTHS, wrong_children_long, "children a word long"},
    {1, LENGTHS, wrong_cuts_short, "cuts a word short"},
    {1, LENGTHS, wrong_cuts_long, "cuts a word long"},
    {1, LENGTHS, wrong_index_short, "index a word short"},
    {1, LENGTHS, wrong_index_long, "index a word long"},
    {1, LENGTHS, wrong_no_node, "room for no node"},
    {1, LENGTHS, wrong_one_edge, "room for one edge"},
    {1, A_MEMO, wrong_memo_empty, "no memo"},
    {1, A_MEMO, wrong_memo_short, "memo a word short"},
    {1, A_MEMO, wrong_memo_long, "memo a word long"},
    {1, A_MEMO, wrong_memo_more, "a set more than nodes"},
    {1, PLACES, wrong_places_short, "a place too few"},
    {1, PLACES, wrong_places_long, "a place too many"},
    {2, WORDS, wrong_node, "a bit of nodes turned"},
    {2, WORDS, wrong_child, "a bit of children turned"},
    {2, WORDS, wrong_cut, "a bit of cuts turned"},
    {2, WORDS, wrong_index, "a bit of index turned"},
    {3, X, wrong_x, "the first id unknown"},
    {3, Y, wrong_y, "the second id unknown"},
    {4, RANGE, wrong_not_range, "a boolean for a range"},
    {4, BOOLEAN, wrong_not_boolean, "a range for a boolean"},
    {4, VARIABLE, wrong_variable, "variable 64"},
    {5, PLACES, wrong_place_low, "the first place too low"},
    {5, PLACES, wrong_place_high, "the last place too high"},
    {6, ADDS, wrong_room_nodes, "room for a node too few"},
    {6, ADDS, wrong_room_edges, "room for an edge too few"},
};
#define WRONGS (sizeof wrongs / sizeof wrongs[0])

// ---- What must be ----

// What a call that is done may have written of the table: all of it by fresh, and by others the nodes and edges that it adds, and the index.
static void allow(const struct call *c) {
    if (!(c->takes & WORDS)) {
        memset(must.nodes, 0, table.nodes_len * sizeof must.nodes[0]);
        memset(must.children, 0, table.children_len * sizeof must.children[0]);
        memset(must.cuts, 0, table.cuts_len * sizeof must.cuts[0]);
        memset(must.index_words, 0, table.index_len * sizeof must.index_words[0]);
    }
    if (c->takes & ADDS) {
        const size_t words = SPANWHISTLE_NODE_WORDS(USED_NODES);
        memcpy(must.nodes + words, lent.nodes + words, SPANWHISTLE_NODE_WORDS(c->nodes) * sizeof must.nodes[0]);
        memcpy(must.children + USED_EDGES, lent.children + USED_EDGES, c->edges * sizeof must.children[0]);
        memcpy(must.cuts + USED_EDGES, lent.cuts + USED_EDGES, c->edges * sizeof must.cuts[0]);
        memcpy(must.index_words, lent.index_words, table.index_len * sizeof must.index_words[0]);
    }
}

// Makes a call in a wrong form, or with nothing wrong where there is none, and looks at all that it left.
static void make(const struct call *c, const struct wrong *w) {
    struct told wanted = untold;
    uint32_t number;
    ask(c);
    if (w)
        w->make();
    must = lent;
    number = c->call();
    must_be("the number", number, w ? w->refusal : SPANWHISTLE_DONE);
    switch (c->out) {
    case NOTHING:
        break;
    case ID:
        wanted.id = w ? SPANWHISTLE_FALSE : c->answer;
        break;
    case YES:
        wanted.yes = w ? 0 : c->answer;
        break;
    case COUNTS:
        wanted.nodes = w ? 0 : USED_NODES;
        wanted.edges = w ? 0 : USED_EDGES;
        break;
    }
    must_be("the id", told.id, wanted.id);
    must_be("yes or no", told.yes, wanted.yes);
    must_be("the count of nodes", told.nodes, wanted.nodes);
    must_be("the count of edges", told.edges, wanted.edges);
    // The memo is zero as far as it was lent beside 0 and 6, which come after it was used.
    if ((c->takes & A_MEMO) && (!w || w->refusal == SPANWHISTLE_NO_ROOM))
        memset(must.memo, 0, memo_len * sizeof must.memo[0]);
    if (!w)
        allow(c);
    must_be_words("nodes", lent.nodes, must.nodes, sizeof must.nodes);
    must_be_words("children", lent.children, must.children, sizeof must.children);
    must_be_words("cuts", lent.cuts, must.cuts, sizeof must.cuts);
    must_be_words("index", lent.index_words, must.index_words, sizeof must.index_words);
    must_be_words("the memo", lent.memo, must.memo, sizeof must.memo);
    must_be_words("the places", lent.places, must.places, sizeof must.places);
}

// Makes a call in each wrong form that it has, and after each with nothing wrong; how many there were. The refusals seen must be those that
// the header names.
static size_t refuse(const struct call *c) {
    char seen[2 * SPANWHISTLE_NO_ROOM + 1] = "";
    size_t length = 0, forms = 0;
    uint32_t last = SPANWHISTLE_DONE;
    call_name = c->name;
    for (size_t k = 0; k < WRONGS; k++) {
        const struct wrong *w = &wrongs[k];
        if ((w->takes & c->takes) != w->takes)
            continue;
        form = w->form;
        make(c, w);
        form = "with nothing wrong";
        make(c, NULL);
        forms++;
        if (w->refusal != last) {
            length += (size_t)sprintf(seen + length, length ? " %u" : "%u", (unsigned)w->refusal);
            last = w->refusal;
        }
    }
    if (strcmp(seen, c->refusals) != 0) {
        printf("%s: refusals seen are %s, must be %s\n", call_name, seen, c->refusals);
        exit(1);
    }
    printf("%s: %s in %zu wrong forms, each as the header says\n", call_name, seen, forms);
    return forms;
}

int main(void) {
    size_t forms = 0;
    for (size_t i = 0; i < CALLS; i++)
        forms += refuse(&calls[i]);
    printf("%zu calls refused in %zu wrong forms: number, out-parameters, table and memo are as the header says\n", CALLS, forms);
    return 0;
}
