/* The K best plans of a tour book, for C and C++ on x86-64 Linux. Link with libkbest_c.a.
 *
 * A book is an array of signed 32-bit words: D, H, L, the posts of each stage, the choices of each post, then the left and the right column.
 * A choice has at most 6 next posts. The weights of a choice before stage H add to at most D. What is missing is the chance, over D, that the tour
 * stops after that choice: the day then costs the choices made so far. A choice without next posts before stage H is a sure stop.
 * A post has 1 to 8 choices. At stage H they are the depots where the tour may end: none has next posts, and each has its own cost.
 * A cost of KBEST_CLOSED marks a choice as closed: no plan takes it, and none reaches a post with every choice closed. So a book may have no plan.
 * A plan has one byte for each of the book's S posts: the choice of a reached post, at stage H the depot; 255 for any other.
 * Costs are exact and stand over D^H: divide by kbest_power(D, H) for the expected total cost.
 * A planners' table is an array of the same kind: D, H, n, the first state, L, the choices of each of the n states, then the left and the right column, the
 * last n lines closing ones. It has rewards, to be raised, and the same states and choices at every stage; kbest_convert makes a book of it.
 *
 * Every call takes any array of any length, any count and any desk. Each array crosses as a pointer and its number of elements.
 * A call gives 0, or the number of the first question that is answered no. A refusal sets every figure to 0 and leaves every lent array and the desk
 * as they were. Success writes the stated front of a lent array and leaves the rest as it was.
 *
 * For an array of length 0 any pointer will do, a null pointer too. The caller sees to it that every other pointer is aligned for its type and
 * points to as many elements as are said, that no pointer to a figure or a desk is null, and that no array, figure or desk that is written overlaps
 * another argument. No call keeps a pointer, allocates memory, reads or writes anything but its arguments, or waits; calls from several threads do not
 * disturb each other, but calls on one desk have to come one after another, refused ones too. A call takes less than 128 kB of stack. */
#ifndef KBEST_H
#define KBEST_H

#include <stddef.h>
#include <stdint.h>

#ifdef __cplusplus
extern "C" {
#endif

/* The version of this header, as text and as a number: the first x 10,000 + the second x 100 + the third. */
#define KBEST_VERSION_TEXT "1.8.0"
#define KBEST_VERSION 10800

/* The version of the library that is linked, as a number. */
uint32_t kbest_version(void);

/* The longest book in words, the most posts of a book, the most plans of a list and the longest record in bytes. */
#define KBEST_BOOK_MOST 4172
#define KBEST_POSTS_MOST 64
#define KBEST_PLANS_MOST 64
#define KBEST_RECORD_MOST 21308

/* The most plans of a book that kbest_rank_small lists. */
#define KBEST_SMALL_MOST 4096

/* The longest planners' table in words, and the longest book that a table can give: one of more than KBEST_BOOK_MOST words is always refused. */
#define KBEST_TABLE_MOST 4117
#define KBEST_TABLE_BOOK_MOST 32775

/* How many riders a desk has: they are 0 to 15. */
#define KBEST_RIDERS 16

/* The byte of a post that a plan does not reach. */
#define KBEST_NOT_REACHED 255

/* The cost of a closed choice. */
#define KBEST_CLOSED 200000

/* What a call gives: 0, or the number of a question, which kbest_question has as text. */
enum {
    KBEST_ACCEPTED = 0,
    KBEST_TOO_FEW_WORDS = 1,
    KBEST_SCALE = 2,
    KBEST_STAGES = 3,
    KBEST_LINES = 4,
    KBEST_POST_COUNTS = 5,
    KBEST_POSTS = 6,
    KBEST_BOOK_LENGTH = 7,
    KBEST_CHOICES = 8,
    KBEST_LINES_USED = 9,
    KBEST_COST = 10,
    KBEST_NEXT_POST = 11,
    KBEST_WEIGHT = 12,
    KBEST_BOUND = 13,
    KBEST_COUNT = 14,
    KBEST_COSTS_ROOM = 15,
    KBEST_PLANS_ROOM = 16,
    KBEST_PLAN = 17,
    KBEST_RECORD_ROOM = 18,
    KBEST_RECORD_HEAD = 19,
    KBEST_RECORD_LENGTH = 20,
    KBEST_RECORD_LIST = 21,
    KBEST_RIDER = 22,
    KBEST_RANK = 23,
    KBEST_RESERVED = 24,
    KBEST_TABLE_SIZES = 25,
    KBEST_TABLE_LINES = 26,
    KBEST_BOOK_ROOM = 27,
    KBEST_NO_PLAN = 28,
    KBEST_LIMIT = 29,
    KBEST_TOO_MANY_PLANS = 30
};

/* The questions. Each call asks some of them in the order that it states, and each is put to the whole input before the next. Any other number gives an
 * empty text. */
static inline const char *kbest_question(uint32_t number) {
    switch (number) {
    case KBEST_TOO_FEW_WORDS: return "are there three words?";
    case KBEST_SCALE: return "is D from 1 to 100?";
    case KBEST_STAGES: return "is H from 1 to 8?";
    case KBEST_LINES: return "is L from 1 to 2,048?";
    case KBEST_POST_COUNTS: return "are there H + 1 post counts?";
    case KBEST_POSTS: return "is there one post at stage 0, are there 1 to 16 at every other, and at most 64 in all?";
    case KBEST_BOOK_LENGTH: return "is the length exactly 4 + H + S + 2L words?";
    case KBEST_CHOICES: return "has each post 1 to 8 choices?";
    case KBEST_LINES_USED: return "is every r from 0 to 6, and 0 at stage H, do all lines fit, and are exactly L used?";
    case KBEST_COST: return "is every cost from -100,000 to 100,000, or 200,000 where the choice is closed?";
    case KBEST_NEXT_POST: return "do the next posts of each choice rise strictly and lie within the next stage?";
    case KBEST_WEIGHT: return "is every weight from 1 to D, and does each choice's sum to at most D?";
    case KBEST_BOUND: return "is D^H x (H + 1) x (largest cost of an open choice without its sign) at most 4 x 10^18?";
    case KBEST_COUNT: return "is K from 1 to 64?";
    case KBEST_COSTS_ROOM: return "has the lent array of costs K places?";
    case KBEST_PLANS_ROOM: return "has the lent array of plans K x S bytes?";
    case KBEST_PLAN: return "is it a plan of this book?";
    case KBEST_RECORD_ROOM: return "does the lent array hold the record?";
    case KBEST_RECORD_HEAD: return "are there 12 bytes, is W at most 4,172, and do 4 x W bytes follow?";
    case KBEST_RECORD_LENGTH: return "is k from 1 to K, and the record's length exact?";
    case KBEST_RECORD_LIST: return "are costs, plans and k those that ranking gives?";
    case KBEST_RIDER: return "is the rider from 0 to 15?";
    case KBEST_RANK: return "does the record list the rank?";
    case KBEST_RESERVED:
        return "on asking, is the rank with no other rider and the asker not yet committed; on committing, is a rank held?";
    case KBEST_TABLE_SIZES:
        return "are there five sizes, is n from 1 to 16, the first state from 0 to n - 1, D from 1 to 100, H from 1 to 8 and L from 1 to 2,048, "
               "and is the length exactly 5 + n + 2L words?";
    case KBEST_TABLE_LINES:
        return "has each state 1 to 8 choices, is every r at least 1, do all lines fit, are exactly L used, do the weights of each choice add to D, "
               "has each closing line its 0, and is every reward from -100,000 to 100,000?";
    case KBEST_BOOK_ROOM: return "does the lent array hold the book?";
    case KBEST_NO_PLAN: return "has the book a plan?";
    case KBEST_LIMIT: return "is there one mark, 0 or 1, for each choice of the book, and is m from 0 to 9?";
    case KBEST_TOO_MANY_PLANS: return "has the book at most 4,096 plans?";
    default: return "";
    }
}

/* Checks a book: questions 1 to 13. */
uint32_t kbest_check(const int32_t *book, size_t words);

/* d^e for d from 1 to 100 and e from 0 to 8; 0 for any other. */
uint64_t kbest_power(size_t d, size_t e);

/* Values one plan: questions 1 to 13, then 17. *cost is the plan's cost. In a book that has no plan every array gets 17. */
uint32_t kbest_value(const int32_t *book, size_t words, const uint8_t *plan, size_t bytes, int64_t *cost);

/* The least cost of all plans of a book: questions 1 to 13, then 28. */
uint32_t kbest_least(const int32_t *book, size_t words, int64_t *cost);

/* Lists the k best plans: questions 1 to 14, then 28, 15 and 16. *listed is how many there are, k or as many as the book has. Plan j, counted from 0, has cost
 * costs[j] and fills the S bytes of plans from j x S. Lower costs come first; of equal costs the lower choice at the first post where they differ. */
uint32_t kbest_rank(const int32_t *book, size_t words, size_t k, int64_t *costs, size_t costs_room, uint8_t *plans, size_t plans_room,
                    size_t *listed);

/* The same list for a book with at most KBEST_SMALL_MOST plans, by going through all of them: questions 1 to 14, then 28, 30, 15 and 16. What is accepted gets
 * exactly what kbest_rank gives. It is for books of a few plans: its time grows with the number of plans, and docs/PERFORMANCE.md says up to how many it is the
 * faster of the two. Where most books are small a caller may call it first, and kbest_rank where it gives KBEST_TOO_MANY_PLANS; until it does, some rankings
 * could have been made. */
uint32_t kbest_rank_small(const int32_t *book, size_t words, size_t k, int64_t *costs, size_t costs_room, uint8_t *plans, size_t plans_room,
                          size_t *listed);

/* What kbest_find says of a plan. */
enum {
    KBEST_LISTED = 1,
    KBEST_COSTS_MORE = 2,
    KBEST_TAKES_HIGHER = 3
};

/* Where a plan stands in the list that kbest_rank gives for the same book and k: questions 1 to 14, then 28 and 17. Of any plan of the book exactly one of the
 * three is true, and *answer says which:
 * - KBEST_LISTED: it is listed, with rank *value, from 1, so it is plan *value - 1 of kbest_rank;
 * - KBEST_COSTS_MORE: it is not listed and costs more than the last listed plan, by exactly *value, over D^H, at least 1;
 * - KBEST_TAKES_HIGHER: it is not listed and costs the same as the last listed plan. *value is the first post, from 0, where the two differ: both reach it, and
 *   the last listed plan takes the lower choice there.
 * A list of fewer than k plans has every plan of the book, so the last two come with a list of k plans only. In a book that has no plan every array gets 28. */
uint32_t kbest_find(const int32_t *book, size_t words, size_t k, const uint8_t *plan, size_t bytes, uint32_t *answer, int64_t *value);

/* What kbest_limit says of a list. */
enum {
    KBEST_KEPT = 1,
    KBEST_NONE_IN_LIST = 2,
    KBEST_NONE_IN_BOOK = 3
};

/* The first plan none of whose days makes more than m marked choices, in the list that kbest_rank gives for the same book and k: questions 1 to 14, then 28 and
 * 29. `marks` has one byte, 1 or 0, for each choice of the book in the book's order, closed ones and those at stage H too; m is from 0 to 9. A day that stops
 * counts the choices made. *answer says which of the three is true:
 * - KBEST_KEPT: plan *rank of the list, from 1, is the first that keeps the limit, so it is plan *rank - 1 of kbest_rank;
 * - KBEST_NONE_IN_LIST: k plans are listed and none of them keeps the limit. Of the plans that are not listed nothing is said;
 * - KBEST_NONE_IN_BOOK: fewer than k are listed, so every plan of the book, and none keeps the limit.
 * *rank is 0 with the last two. */
uint32_t kbest_limit(const int32_t *book, size_t words, size_t k, const uint8_t *marks, size_t choices, size_t m, uint32_t *answer, size_t *rank);

/* Writes the record of a book and k to the front of `record`: questions 1 to 14, then 28 and 18. *length is the record's length. */
uint32_t kbest_write(const int32_t *book, size_t words, size_t k, uint8_t *record, size_t room, size_t *length);

/* Accepts a record: question 19, then 1 to 14 and 28 of what it carries, 20 and 21. *posts is S of its book, *listed how many plans it lists. */
uint32_t kbest_accept(const uint8_t *record, size_t bytes, size_t *posts, size_t *listed);

/* Where plan j of a record lies: *length bytes from record + *offset. Both are 0 where the record is not accepted or lists no plan j. */
void kbest_show(const uint8_t *record, size_t bytes, size_t j, size_t *offset, size_t *length);

/* Writes the book of a planners' table to the front of `book`: questions 25 to 27, then 1 to 13 of the book. *length is the book's length in words. Its
 * plans are the table's policies: a byte for the first state, then one for each of the n states of every later stage; the cost of each is minus its
 * expected total reward, over D^H. KBEST_BOOK_MOST words hold every book that is accepted; with fewer than KBEST_TABLE_BOOK_MOST a table whose book is
 * too long gets 27, and else the number of the book. */
uint32_t kbest_convert(const int32_t *table, size_t words, int32_t *book, size_t room, size_t *length);

/* A desk: which rank of one accepted record is whose. It lies in the caller's memory, starts as kbest_desk_fresh gives it, and only the calls below
 * change it. k is how many plans the record lists, 0 before one is opened; held and committed have a rank for each rider, 0 for none. Rank 1 is the
 * plan that kbest_show has as 0. After any calls on an opened desk no rank is held or committed for two riders, and a rider who was granted a rank can
 * commit, whatever is done for others, until they cancel, commit or are granted another, or the desk is opened anew.
 * For a desk that was made or changed in another way a call that does not open it still ends with a result or a number; no more is promised. */
typedef struct kbest_desk {
    uint8_t k;
    uint8_t held[KBEST_RIDERS];
    uint8_t committed[KBEST_RIDERS];
} kbest_desk;

/* A desk that no record was opened at: every rank is refused with 23. */
kbest_desk kbest_desk_fresh(void);

/* Opens a desk, also anew, with a record: the questions of kbest_accept. The desk then has the record's k, and nothing is held or committed. */
uint32_t kbest_desk_open(kbest_desk *desk, const uint8_t *record, size_t bytes);

/* Holds a rank, 1 to k, for a rider: questions 22 to 24. Another rank that the rider held is free again; they may ask for the same once more. */
uint32_t kbest_desk_ask(kbest_desk *desk, size_t rider, size_t rank);

/* Makes the rank that a rider holds theirs and ends the hold: questions 22 and 24. */
uint32_t kbest_desk_commit(kbest_desk *desk, size_t rider);

/* Drops the rank that a rider holds, if any, which is free again, and never a commitment: question 22. */
uint32_t kbest_desk_cancel(kbest_desk *desk, size_t rider);

/* The rank that a rider holds, and the one that they have committed to; 0 for none, and for a number that is no rider's. */
size_t kbest_desk_held(const kbest_desk *desk, size_t rider);
size_t kbest_desk_committed(const kbest_desk *desk, size_t rider);

#ifdef __cplusplus
}
#endif

#endif
