/* A null pointer for each array of length 0: every call gives the number that it gives for any other pointer, and 0 for every figure; the desk stays
 * as it was. */
#include <stdio.h>
#include <string.h>

#include "kbest.h"

#define ASKED 3
#define BEFORE 99

static const int32_t BOOK[] = {2, 1, 7, 1, 2, 2, 1, 1, 2, 0, 1, 1, 0, 0, 0, 10, 1, 1, 12, 2, 4, 9};
#define WORDS (sizeof BOOK / sizeof BOOK[0])
static const uint8_t PLAN[] = {1, 0, KBEST_NOT_REACHED};
static const uint8_t MARKS[] = {0, 1, 0, 0};
static const int32_t TABLE[] = {2, 1, 1, 0, 3, 1, 1, 0, 0, 5, 2, 4};
#define TABLE_WORDS (sizeof TABLE / sizeof TABLE[0])

/* What is lent beside an empty array has room enough. */
static int64_t costs[ASKED];
static int32_t words[50];
static uint8_t bytes[200];
static kbest_desk desk;

/* Which figures a call has. */
enum figures { NONE, COST, FOUND, KEPT, ONE, TWO };
static int64_t cost = BEFORE;
static uint32_t answer = BEFORE;
static size_t first = BEFORE, second = BEFORE;

static int calls, faults;

static int untouched(void) {
    for (size_t i = 0; i < ASKED; i++)
        if (costs[i] != BEFORE)
            return 0;
    for (size_t i = 0; i < sizeof words / sizeof words[0]; i++)
        if (words[i] != BEFORE)
            return 0;
    for (size_t i = 0; i < sizeof bytes; i++)
        if (bytes[i] != BEFORE)
            return 0;
    for (size_t rider = 0; rider < KBEST_RIDERS; rider++)
        if (desk.held[rider] != BEFORE || desk.committed[rider] != BEFORE)
            return 0;
    return desk.k == BEFORE;
}

static void same(const char *call, enum figures has, uint32_t number, uint32_t want) {
    int figures = cost == (has == COST || has == FOUND ? 0 : BEFORE) && answer == (has == FOUND || has == KEPT ? 0 : BEFORE)
        && first == (has >= KEPT ? 0 : BEFORE) && second == (has == TWO ? 0 : BEFORE);
    calls++;
    if (number != want || !figures || !untouched()) {
        printf("null: %s gives %u for %u, figures %lld %u %zu %zu\n", call, number, want, (long long)cost, answer, first, second);
        faults++;
    }
    cost = answer = first = second = BEFORE;
}

static void ask(void *empty) {
    same("check", NONE, kbest_check(empty, 0), KBEST_TOO_FEW_WORDS);
    same("least", COST, kbest_least(empty, 0, &cost), KBEST_TOO_FEW_WORDS);
    same("value of no book", COST, kbest_value(empty, 0, PLAN, sizeof PLAN, &cost), KBEST_TOO_FEW_WORDS);
    same("value of no plan", COST, kbest_value(BOOK, WORDS, empty, 0, &cost), KBEST_PLAN);
    same("value of neither", COST, kbest_value(empty, 0, empty, 0, &cost), KBEST_TOO_FEW_WORDS);
    same("rank of no book", ONE, kbest_rank(empty, 0, ASKED, costs, ASKED, bytes, sizeof bytes, &first), KBEST_TOO_FEW_WORDS);
    same("rank without costs", ONE, kbest_rank(BOOK, WORDS, ASKED, empty, 0, bytes, sizeof bytes, &first), KBEST_COSTS_ROOM);
    same("rank without plans", ONE, kbest_rank(BOOK, WORDS, ASKED, costs, ASKED, empty, 0, &first), KBEST_PLANS_ROOM);
    same("rank without room", ONE, kbest_rank(BOOK, WORDS, ASKED, empty, 0, empty, 0, &first), KBEST_COSTS_ROOM);
    same("rank of nothing", ONE, kbest_rank(empty, 0, 0, empty, 0, empty, 0, &first), KBEST_TOO_FEW_WORDS);
    same("rank of no plans", ONE, kbest_rank(BOOK, WORDS, 0, empty, 0, empty, 0, &first), KBEST_COUNT);
    same("rank_small of no book", ONE, kbest_rank_small(empty, 0, ASKED, costs, ASKED, bytes, sizeof bytes, &first), KBEST_TOO_FEW_WORDS);
    same("rank_small without costs", ONE, kbest_rank_small(BOOK, WORDS, ASKED, empty, 0, bytes, sizeof bytes, &first), KBEST_COSTS_ROOM);
    same("rank_small without plans", ONE, kbest_rank_small(BOOK, WORDS, ASKED, costs, ASKED, empty, 0, &first), KBEST_PLANS_ROOM);
    same("rank_small without room", ONE, kbest_rank_small(BOOK, WORDS, ASKED, empty, 0, empty, 0, &first), KBEST_COSTS_ROOM);
    same("rank_small of nothing", ONE, kbest_rank_small(empty, 0, 0, empty, 0, empty, 0, &first), KBEST_TOO_FEW_WORDS);
    same("rank_small of no plans", ONE, kbest_rank_small(BOOK, WORDS, 0, empty, 0, empty, 0, &first), KBEST_COUNT);
    same("find in no book", FOUND, kbest_find(empty, 0, ASKED, PLAN, sizeof PLAN, &answer, &cost), KBEST_TOO_FEW_WORDS);
    same("find of no plan", FOUND, kbest_find(BOOK, WORDS, ASKED, empty, 0, &answer, &cost), KBEST_PLAN);
    same("find of nothing", FOUND, kbest_find(empty, 0, 0, empty, 0, &answer, &cost), KBEST_TOO_FEW_WORDS);
    same("find in no list", FOUND, kbest_find(BOOK, WORDS, 0, empty, 0, &answer, &cost), KBEST_COUNT);
    same("limit in no book", KEPT, kbest_limit(empty, 0, ASKED, MARKS, sizeof MARKS, 0, &answer, &first), KBEST_TOO_FEW_WORDS);
    same("limit without marks", KEPT, kbest_limit(BOOK, WORDS, ASKED, empty, 0, 0, &answer, &first), KBEST_LIMIT);
    same("limit of nothing", KEPT, kbest_limit(empty, 0, 0, empty, 0, 0, &answer, &first), KBEST_TOO_FEW_WORDS);
    same("limit in no list", KEPT, kbest_limit(BOOK, WORDS, 0, empty, 0, 0, &answer, &first), KBEST_COUNT);
    same("write of no book", ONE, kbest_write(empty, 0, ASKED, bytes, sizeof bytes, &first), KBEST_TOO_FEW_WORDS);
    same("write without room", ONE, kbest_write(BOOK, WORDS, ASKED, empty, 0, &first), KBEST_RECORD_ROOM);
    same("write of nothing", ONE, kbest_write(empty, 0, 0, empty, 0, &first), KBEST_TOO_FEW_WORDS);
    same("accept", TWO, kbest_accept(empty, 0, &first, &second), KBEST_RECORD_HEAD);
    kbest_show(empty, 0, 0, &first, &second);
    same("show", TWO, 0, 0);
    same("convert of no table", ONE, kbest_convert(empty, 0, words, sizeof words / sizeof words[0], &first), KBEST_TABLE_SIZES);
    same("convert without room", ONE, kbest_convert(TABLE, TABLE_WORDS, empty, 0, &first), KBEST_BOOK_ROOM);
    same("convert of nothing", ONE, kbest_convert(empty, 0, empty, 0, &first), KBEST_TABLE_SIZES);
    same("open", NONE, kbest_desk_open(&desk, empty, 0), KBEST_RECORD_HEAD);
}

int main(void) {
    static int64_t place;
    for (size_t i = 0; i < ASKED; i++)
        costs[i] = BEFORE;
    for (size_t i = 0; i < sizeof words / sizeof words[0]; i++)
        words[i] = BEFORE;
    memset(bytes, BEFORE, sizeof bytes);
    desk.k = BEFORE;
    for (size_t rider = 0; rider < KBEST_RIDERS; rider++)
        desk.held[rider] = desk.committed[rider] = BEFORE;
    ask(&place);
    ask(NULL);
    if (faults == 0)
        printf("null: %d calls with a pointer and with none for arrays of length 0 agree\n", calls);
    return faults != 0;
}
