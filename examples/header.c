// The header by itself, as C and as C++: what it says in words of each number, its version, and that calls link. examples/run compiles this
// file as C99, as C11 and, where there is a C++ compiler, as C++17. Ends with status 1 at the first answer that is not the one that it must be.
#include "spanwhistle.h"
#include "spanwhistle.h" /* a second time, which changes nothing */
#include <stdio.h>
#include <string.h>

static int must_be(const char *what, const char *is, const char *wanted) {
    if (strcmp(is, wanted) != 0) {
        printf("%s: '%s', must be '%s'\n", what, is, wanted);
        return 1;
    }
    return 0;
}

int main(void) {
    static const char *const names[] = {
        "done",
        "refusal 1: a length is not allowed",
        "refusal 2: the table is not sound",
        "refusal 3: the table has no such id",
        "refusal 4: there is no such variable of this kind",
        "refusal 5: a place lies beyond the ends",
        "refusal 6: there is no room for the answer",
        "no number that a call of this version returns",
    };
    uint32_t nodes[SPANWHISTLE_NODE_WORDS(1)] = {0}, children[2] = {0}, index_words[SPANWHISTLE_INDEX_WORDS(1)] = {0}, id;
    int64_t cuts[2] = {0};
    spanwhistle_table table = {nodes, 4, children, 2, cuts, 2, index_words, 4};
    char version[32];
    uint32_t number;
    for (number = 0; number < sizeof names / sizeof names[0]; number++)
        if (must_be("a name", spanwhistle_name(number), names[number]))
            return 1;
    sprintf(version, "%d.%d.%d", SPANWHISTLE_VERSION_MAJOR, SPANWHISTLE_VERSION_MINOR, SPANWHISTLE_VERSION_PATCH);
    if (must_be("the version", SPANWHISTLE_VERSION, version))
        return 1;
    number = spanwhistle_from_bool(SPANWHISTLE_LENT(table), 63, &id);
    if (must_be("the first condition", spanwhistle_name(number), "done") || id != 2 || spanwhistle_not(id) != 3)
        return 1;
    number = spanwhistle_from_bool(SPANWHISTLE_LENT(table), 62, &id);
    return must_be("a second in room for one", spanwhistle_name(number), names[SPANWHISTLE_NO_ROOM]);
}
