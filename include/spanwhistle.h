/*
 * Spanwhistle: compares the conditions of correction rules exactly. This header is for C99 and C++; link target/staticlib/libspanwhistle.a,
 * which `tools/build spanwhistle` makes, or `tools/install` with a pkg-config file. The archive needs memcpy and memset and nothing else. It
 * has 27 KB of code and constants, if all calls are linked, and no data (26,961, 0 and 0 bytes of text, data and bss by `size`, x86-64).
 *
 * WHAT A TABLE IS
 *
 * A condition ("temperature at least 15 and nozzle switch on") becomes an id, a number of 32 bits, and nodes in a table. The table is
 * memory that you lend for the length of a call: four arrays, and for some calls a fifth, the memo, which is scratch. With room for R
 * nodes (1 to 4,096) and E edges (2 to 16,384) their lengths, in elements, are
 *
 *     nodes     SPANWHISTLE_NODE_WORDS(R)   uint32_t   four words a node
 *     children  E                           uint32_t   where each edge leads
 *     cuts      E                           int64_t    where each edge ends
 *     index     SPANWHISTLE_INDEX_WORDS(R)  uint32_t   finds a node by what it holds
 *     memo      SPANWHISTLE_MEMO_WORDS(S)   uint64_t   scratch: never believed, and all zero after a call that used it
 *
 * S, the number of sets of the memo, is yours to choose: 1 to R. No answer goes by it. A memo of R sets is quickest for large conditions;
 * a call writes every word of its memo, so that a shorter one is quicker for small conditions, and takes less memory: 64 bytes a set.
 * Memory that is all zero is an empty table; spanwhistle_fresh makes one of any memory. docs/LAYOUT.md tells every word.
 * Lengths are the only thing that says how large a table is: nothing is kept anywhere else, so nothing else can be wrong.
 * The words are in the machine's own byte order: a table that was written on a machine of the other order is another table, and is
 * refused unless it happens to be sound. Store the order beside a table that travels.
 *
 * An id belongs to the table that it was made in. In one table two conditions say the same exactly when they have the same id. Ids stay
 * right while the table grows, and are good for storing beside it. Every table has the ids SPANWHISTLE_TRUE and SPANWHISTLE_FALSE.
 *
 * VARIABLES, KEYS, PLACES
 *
 * Variables 0 to 31 are ranges: a temperature, a month. Variables 32 to 63 are booleans: a nozzle switch. A condition compares a range
 * variable with a key, a whole number of 32 bits, but a reading may also lie between two keys: "exactly 15" is one place,
 * SPANWHISTLE_PLACE(15), and "more than 15 and less than 16" the next, SPANWHISTLE_PLACE_ABOVE(15). So "above 1 and below 2" is not empty.
 *
 * ANSWERS
 *
 * Every call but spanwhistle_not returns one of the numbers 0 to 6 below. 0 means done; any other is a refusal, and then the table is, word
 * for word, as you lent it. Tests go in the order 1 to 6, and the first that fails decides. Every call that is lent a table, but
 * spanwhistle_fresh, tests all of it once its lengths are right, since any word of it may be wrong. spanwhistle_name has the numbers in words.
 * Out-parameters are always written, also beside a refusal: an id is then SPANWHISTLE_FALSE, a yes-or-no is 0 (no), a count is 0.
 *
 * WHAT A CALLER MUST NOT DO
 *
 * These are for you to see to, since no call can test them; to do one is undefined behaviour:
 *   - lend the same memory twice in one call: arrays that overlap, or an out-pointer into an array or to the other out-parameter;
 *   - lend memory that another thread or an interrupt writes while the call runs, or that it reads while the call may write it;
 *   - pass NULL or a pointer that is not aligned for its type, also where the length is 0 and for out-parameters;
 *   - pass a length that is longer than the memory behind the pointer, or an out-pointer to no memory of yours.
 * Anything else is answered by a number: any contents, any length within your memory, any id, variable, key, place or kind of bound.
 *
 * A table that lies half written in memory that outlives a power cut is tested by the next call like any other, and refused with 2 unless
 * every word of it is as a sound table's must be. What no test of a table alone can see is a change from one sound table to another, as
 * from cut 10 to cut 12 in a table with room for one node: if you fear that, keep a checksum or a signature beside the table.
 *
 * MEMORY, THREADS, STACK
 *
 * No call allocates, and the archive has no variable of its own: calls on different tables may run at the same time, and calls that write
 * nothing (spanwhistle_check, spanwhistle_evaluate, spanwhistle_is_disjoint) on the same table too.
 *
 * Calls that walk down a table call themselves, once for each variable on the way, and most of them with an array of 64 edges each time
 * (`and` and `or` at range variables alone). They need a deep stack. Enough in our deepest test were 75,704 bytes for `restrict`, 50,728
 * for `and` and `or`, 41,576 for `widen`, 41,144 for `narrow`, 21,496 for `is_disjoint`, 2,928 for a condition and 352 for the rest. The
 * test is examples/stack.c: conditions over all 64 variables, on x86-64 with this project's compiler. It is measured and not proved, and
 * another machine has other figures. SPANWHISTLE_STACK_JOIN and the like are no less than these. Conditions that
 * test fewer variables take less:
 *
 *     variables         2       4       8      16      32      64
 *     and, or       3,432   6,152  11,592  22,472  44,232  50,728
 *     restrict      4,280   6,584  11,192  20,408  38,840  75,704
 *     narrow        5,432   7,736  12,344  21,560  39,992  41,144
 *     widen         5,864   8,168  12,776  21,992  40,424  41,576
 *     is_disjoint   4,632   5,176   6,264   8,440  12,792  21,496
 *
 * where all variables but one are ranges, as far as there are: a boolean takes `and` and `or` less, and narrow and widen go no deeper than
 * their variable. SPANWHISTLE_STACK_JOIN_OF(V) and the like are enough for V variables in the same test. What interrupts need on the same stack
 * comes on top.
 */
#ifndef SPANWHISTLE_H
#define SPANWHISTLE_H

#include <stddef.h>
#include <stdint.h>

#ifdef __cplusplus
extern "C" {
#endif

/* The version of this header and of its archive. The last number rises where nothing changes that a caller sees, the middle one where
   something is added, the first where callers have to change. Before 1.0 the middle one rises for either. */
#define SPANWHISTLE_VERSION_MAJOR 0
#define SPANWHISTLE_VERSION_MINOR 3
#define SPANWHISTLE_VERSION_PATCH 0
#define SPANWHISTLE_VERSION "0.3.0"

/* A number that nobody looks at may be a refusal: compilers that can warn of it do. */
#if defined(__GNUC__)
#define SPANWHISTLE_MUST_USE __attribute__((warn_unused_result))
#else
#define SPANWHISTLE_MUST_USE
#endif

/* The numbers that calls return. */
#define SPANWHISTLE_DONE 0u
#define SPANWHISTLE_BAD_LENGTH 1u   /* the length of an array is none of those above, or the lengths do not go together */
#define SPANWHISTLE_NOT_SOUND 2u    /* the table is not sound: some word is not as it must be */
#define SPANWHISTLE_UNKNOWN_ID 3u   /* an id is neither TRUE nor FALSE nor of a node that this table has */
#define SPANWHISTLE_BAD_VARIABLE 4u /* a variable is 64 or more, or a boolean where a range is asked, or the other way round */
#define SPANWHISTLE_BAD_PLACE 5u    /* a place of a reading lies outside the lowest and the highest */
#define SPANWHISTLE_NO_ROOM 6u      /* no sound table that goes on from this one has room for the answer, with at most 64 edges a node */

/* A number that a call returned, in words, for a log: "refusal 6: there is no room for the answer". */
static inline const char *spanwhistle_name(uint32_t number) {
    switch (number) {
    case SPANWHISTLE_DONE: return "done";
    case SPANWHISTLE_BAD_LENGTH: return "refusal 1: a length is not allowed";
    case SPANWHISTLE_NOT_SOUND: return "refusal 2: the table is not sound";
    case SPANWHISTLE_UNKNOWN_ID: return "refusal 3: the table has no such id";
    case SPANWHISTLE_BAD_VARIABLE: return "refusal 4: there is no such variable of this kind";
    case SPANWHISTLE_BAD_PLACE: return "refusal 5: a place lies beyond the ends";
    case SPANWHISTLE_NO_ROOM: return "refusal 6: there is no room for the answer";
    default: return "no number that a call of this version returns";
    }
}

/* Rooms: the most that a table may have, the least, and the lengths of its arrays for room for R nodes; of a memo of S sets, 1 to R. */
#define SPANWHISTLE_MOST_NODES 4096u
#define SPANWHISTLE_MOST_EDGES 16384u
#define SPANWHISTLE_LEAST_NODES 1u
#define SPANWHISTLE_LEAST_EDGES 2u
#define SPANWHISTLE_NODE_WORDS(R) (4u * (R))
#define SPANWHISTLE_INDEX_WORDS(R) (4u * (R))
#define SPANWHISTLE_MEMO_WORDS(S) (8u * (S))

/* Variables: ranges are 0 to 31, booleans 32 to 63. */
#define SPANWHISTLE_RANGE_VARIABLES 32u
#define SPANWHISTLE_VARIABLES 64u

/* Places: exactly a key; between a key and the next one; below all keys; above all keys. */
#define SPANWHISTLE_PLACE(key) ((int64_t)(key) * 2)
#define SPANWHISTLE_PLACE_ABOVE(key) (SPANWHISTLE_PLACE(key) + 1)
#define SPANWHISTLE_LOWEST_PLACE (-INT64_C(4294967297))
#define SPANWHISTLE_HIGHEST_PLACE INT64_C(4294967295)

/* The two ids that every table has. */
#define SPANWHISTLE_TRUE 0u
#define SPANWHISTLE_FALSE 1u

/* Kinds of bound. Beside an open bound the key is not looked at. Every number but 0 and 1 excludes. */
#define SPANWHISTLE_OPEN 0u
#define SPANWHISTLE_INCLUDES 1u
#define SPANWHISTLE_EXCLUDES 2u

/* Stack in bytes, no less than was measured: see above. */
#define SPANWHISTLE_STACK_JOIN (88u * 1024u)     /* spanwhistle_and, spanwhistle_or */
#define SPANWHISTLE_STACK_RESTRICT (96u * 1024u) /* spanwhistle_restrict */
#define SPANWHISTLE_STACK_NARROW (56u * 1024u)   /* spanwhistle_narrow, spanwhistle_widen */
#define SPANWHISTLE_STACK_DISJOINT (40u * 1024u) /* spanwhistle_is_disjoint */
#define SPANWHISTLE_STACK_CONDITION (3u * 1024u) /* the six comparisons, spanwhistle_from_range, spanwhistle_from_bool */
#define SPANWHISTLE_STACK_READ 1024u             /* spanwhistle_check, spanwhistle_fresh, spanwhistle_evaluate, spanwhistle_not */

/* The same where the conditions test no more than V variables between them. */
#define SPANWHISTLE_STACK_JOIN_OF(V) (512u + 2000u * (V))
#define SPANWHISTLE_STACK_RESTRICT_OF(V) (2048u + 1440u * (V))
#define SPANWHISTLE_STACK_NARROW_OF(V) (6144u + 1456u * (V))
#define SPANWHISTLE_STACK_DISJOINT_OF(V) (4096u + 560u * (V))

/* A table that you lend, to write it once: `spanwhistle_and(SPANWHISTLE_LENT(t), memo, memo_len, x, y, &id)`. */
typedef struct spanwhistle_table {
    uint32_t *nodes;
    size_t nodes_len;
    uint32_t *children;
    size_t children_len;
    int64_t *cuts;
    size_t cuts_len;
    uint32_t *index;
    size_t index_len;
} spanwhistle_table;

/* The eight arguments of a table; for a pointer to one write SPANWHISTLE_LENT(*p). Any struct with these fields will do, also one with
   pointers to const, as of a table in flash, for the three calls that write nothing. It names its argument eight times. */
#define SPANWHISTLE_LENT(t)                                                                                   \
    (t).nodes, (t).nodes_len, (t).children, (t).children_len, (t).cuts, (t).cuts_len, (t).index, (t).index_len

/* The same eight as parameters: of a call that may write the table, and of one that only reads it. */
#define SPANWHISTLE_LENDS                                                                                     \
    uint32_t *nodes, size_t nodes_len, uint32_t *children, size_t children_len, int64_t *cuts, size_t cuts_len, \
        uint32_t *index, size_t index_len
#define SPANWHISTLE_SHOWS                                                                                     \
    const uint32_t *nodes, size_t nodes_len, const uint32_t *children, size_t children_len, const int64_t *cuts, \
        size_t cuts_len, const uint32_t *index, size_t index_len

/* ---- Tables ---- */

/*
 * Makes the table empty, whatever the memory held.
 * Returns 0, or 1 where a length is not allowed. Writes zero to every word of the four arrays beside 0, and nothing beside 1.
 */
SPANWHISTLE_MUST_USE
uint32_t spanwhistle_fresh(SPANWHISTLE_LENDS);

/*
 * Tests the table, as the calls below do at their start: ask it of a table read from flash before the first delivery.
 * Returns 0 exactly when the table is sound, or 1 or 2. Writes the number of used nodes and edges beside 0, and 0 and 0 beside a refusal.
 * Its work goes with the lengths and the edges, whatever was lent: a table of 4,096 nodes and 16,384 edges takes 55 to 130 microseconds on
 * our Xeons, and no table that we built took three times as long (docs/TESTING.md).
 */
SPANWHISTLE_MUST_USE
uint32_t spanwhistle_check(SPANWHISTLE_SHOWS, size_t *used_nodes, size_t *used_edges);

/*
 * Does the condition `id` hold under a reading? `places` has one place for each range variable, in order, so places_len is 32; all of them
 * are looked at, whether the condition tests them or not. Bit i of `bools` is variable 32 + i.
 * Returns 0, or 1 (also where places_len is not 32), 2, 3 or 5. Writes 1 (yes) or 0 (no) to `yes`, and 0 beside a refusal; not the table.
 */
SPANWHISTLE_MUST_USE
uint32_t spanwhistle_evaluate(SPANWHISTLE_SHOWS, const int64_t *places, size_t places_len, uint32_t bools, uint32_t id, uint32_t *yes);

/* ---- Conditions ---- */

/*
 * The condition that range variable `variable` is equal to, not equal to, less than, at most, greater than, at least `key`.
 * Each returns 0, or 1, 2, 4 (no range variable: 32 or more) or 6. Each writes the id, SPANWHISTLE_FALSE beside a refusal, and beside 0
 * adds the node of the condition to the table, unless it is there already.
 */
SPANWHISTLE_MUST_USE
uint32_t spanwhistle_equal(SPANWHISTLE_LENDS, uint32_t variable, int32_t key, uint32_t *id);
SPANWHISTLE_MUST_USE
uint32_t spanwhistle_not_equal(SPANWHISTLE_LENDS, uint32_t variable, int32_t key, uint32_t *id);
SPANWHISTLE_MUST_USE
uint32_t spanwhistle_less_than(SPANWHISTLE_LENDS, uint32_t variable, int32_t key, uint32_t *id);
SPANWHISTLE_MUST_USE
uint32_t spanwhistle_less_equal(SPANWHISTLE_LENDS, uint32_t variable, int32_t key, uint32_t *id);
SPANWHISTLE_MUST_USE
uint32_t spanwhistle_greater_than(SPANWHISTLE_LENDS, uint32_t variable, int32_t key, uint32_t *id);
SPANWHISTLE_MUST_USE
uint32_t spanwhistle_greater_equal(SPANWHISTLE_LENDS, uint32_t variable, int32_t key, uint32_t *id);

/*
 * The condition that range variable `variable` lies within two bounds, each a kind and a key. Both open is TRUE; crossed bounds are FALSE.
 * Returns and writes as the comparisons do.
 */
SPANWHISTLE_MUST_USE
uint32_t spanwhistle_from_range(SPANWHISTLE_LENDS, uint32_t variable, uint32_t lower_kind, int32_t lower_key, uint32_t upper_kind,
                                int32_t upper_key, uint32_t *id);

/*
 * The condition that boolean variable `variable` is yes; spanwhistle_not of its id is the condition that it is no.
 * Returns 0, or 1, 2, 4 (no boolean variable: below 32, or 64 or more) or 6. Writes as the comparisons do.
 */
SPANWHISTLE_MUST_USE
uint32_t spanwhistle_from_bool(SPANWHISTLE_LENDS, uint32_t variable, uint32_t *id);

/* ---- Operations ---- */

/*
 * The opposite of a condition: the id with its lowest bit flipped. It needs no table, so it tests nothing and refuses nothing: of an
 * unknown id it makes an unknown id. It is the one call that returns an id.
 */
SPANWHISTLE_MUST_USE
uint32_t spanwhistle_not(uint32_t id);

/*
 * The condition that both x and y hold, and the condition that at least one of them does.
 * Each returns 0, or 1 (also where the memo is not 1 to R whole sets of eight words), 2, 3 or 6. Each writes the id, SPANWHISTLE_FALSE beside
 * a refusal. Beside 0 it adds to the table the nodes of the answer that are missing, and no other. Beside 0 and 6 the memo is all zero after the call;
 * beside another refusal it is as it was.
 * The memo has up to eight entries a set, and entries overwrite one another: conditions whose nodes have many edges can want more pairs than it
 * holds, and then pairs are worked out again. The worst that is known is 189 nodes in room for 189, with a memo of 189 sets: about a second. The
 * calls below that are lent a memo use it alike; no worst of them is known.
 */
SPANWHISTLE_MUST_USE
uint32_t spanwhistle_and(SPANWHISTLE_LENDS, uint64_t *memo, size_t memo_len, uint32_t x, uint32_t y, uint32_t *id);
SPANWHISTLE_MUST_USE
uint32_t spanwhistle_or(SPANWHISTLE_LENDS, uint64_t *memo, size_t memo_len, uint32_t x, uint32_t y, uint32_t *id);

/*
 * Are x and y apart, so that no reading makes both hold? Two rules whose conditions are apart never correct the same delivery.
 * Returns 0, or 1, 2 or 3. Writes 1 (yes, apart) or 0 (no, they overlap) to `yes`, and 0 beside a refusal; not the table.
 * It is lent no memo and has one of its own, 4 KB on the stack, which holds some 500 pairs of ids: of large conditions that share much of
 * their shape it may take long. The way out is spanwhistle_and with a memo as large as you like: x and y are apart
 * exactly when it writes SPANWHISTLE_FALSE. Where it is told 6 they overlap: every table holds FALSE, so the answer is another.
 */
SPANWHISTLE_MUST_USE
uint32_t spanwhistle_is_disjoint(SPANWHISTLE_SHOWS, uint32_t x, uint32_t y, uint32_t *yes);

/*
 * The condition x where boolean variable `variable` is known: no by `value` 0, yes by every other number. The answer does not test the
 * variable. A range variable leaves x as it is.
 * Returns 0, or 1, 2, 3, 4 (variable 64 or more) or 6. Writes as spanwhistle_and does.
 */
SPANWHISTLE_MUST_USE
uint32_t spanwhistle_restrict(SPANWHISTLE_LENDS, uint64_t *memo, size_t memo_len, uint32_t x, uint32_t variable, uint32_t value,
                              uint32_t *id);

/*
 * The condition x where range variable `variable` is known to lie within two bounds: at a place outside them the answer is x's answer at
 * the nearest place inside. With bounds that hold no place it is FALSE wherever x still changes with the variable, and x elsewhere.
 * Returns 0, or 1, 2, 3, 4 (no range variable: 32 or more) or 6. Writes as spanwhistle_and does.
 */
SPANWHISTLE_MUST_USE
uint32_t spanwhistle_narrow(SPANWHISTLE_LENDS, uint64_t *memo, size_t memo_len, uint32_t x, uint32_t variable, uint32_t lower_kind,
                            int32_t lower_key, uint32_t upper_kind, int32_t upper_key, uint32_t *id);

/*
 * The condition that x holds and range variable `variable` lies within two bounds. No node is made for the bounds by themselves.
 * Bounds that hold no place give FALSE. Returns and writes as spanwhistle_narrow does.
 */
SPANWHISTLE_MUST_USE
uint32_t spanwhistle_widen(SPANWHISTLE_LENDS, uint64_t *memo, size_t memo_len, uint32_t x, uint32_t variable, uint32_t lower_kind,
                           int32_t lower_key, uint32_t upper_kind, int32_t upper_key, uint32_t *id);

#ifdef __cplusplus
}
#endif

#endif
