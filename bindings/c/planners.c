/* planners: makes a book of a planners' table and lists the table's policies by their expected total reward. */
#include <stdio.h>

#include "kbest.h"

#define ASKED 3

/* The two states of source document 001, without closing rewards. */
static const int32_t TABLE[] = {
    10, 1, 2, 0, 13,                         /* D, H, n, the first state, L */
    2, 2,                                    /* choices of each state */
    2, 0, 1, 1, 1, 2, 0, 1, 2, 0, 1, 0, 0,   /* left column */
    5, 5, 5, 10, 10, -1, 8, 2, 1, 1, 9, 0, 0 /* right column */
};
#define WORDS (sizeof TABLE / sizeof TABLE[0])

static int refused(uint32_t number) {
    fprintf(stderr, "refused %u: %s\n", number, kbest_question(number));
    return 1;
}

/* A reward is minus the cost. */
static void print_policy(size_t rank, int64_t cost, const uint8_t *policy, size_t posts) {
    printf("%zu %lld", rank, (long long)-cost);
    for (size_t p = 0; p < posts; p++) {
        if (policy[p] == KBEST_NOT_REACHED)
            printf(" -");
        else
            printf(" %d", policy[p]);
    }
    printf("\n");
}

static int list(const int32_t *book, size_t length) {
    int64_t costs[ASKED];
    uint8_t plans[ASKED * KBEST_POSTS_MOST];
    size_t listed, posts = 1 + (size_t)(TABLE[1] * TABLE[2]);
    uint32_t no = kbest_rank(book, length, ASKED, costs, ASKED, plans, sizeof plans, &listed);
    if (no != KBEST_ACCEPTED)
        return refused(no);
    printf("%zu of %d, scale %llu\n", listed, ASKED, (unsigned long long)kbest_power(TABLE[0], TABLE[1]));
    for (size_t j = 0; j < listed; j++)
        print_policy(j + 1, costs[j], plans + j * posts, posts);
    return 0;
}

int main(void) {
    int32_t book[KBEST_BOOK_MOST];
    size_t length;
    uint32_t no = kbest_convert(TABLE, WORDS, book, KBEST_BOOK_MOST, &length);
    if (no != KBEST_ACCEPTED)
        return refused(no);
    printf("book of %zu words\n", length);
    if (list(book, length) != 0)
        return 1;
    no = kbest_convert(TABLE, WORDS - 1, book, KBEST_BOOK_MOST, &length);
    printf("without its last word: refused %u: %s\n", no, kbest_question(no));
    return 0;
}
