/* monday: two dispatchers at one desk reserve plans of a record for their riders; prints what each call gives, and whose the ranks are then. */
#include <stdio.h>

#include "kbest.h"

#define ASKED 4

static const int32_t BOOK[] = {
    2, 1, 10,                       /* D, H, L */
    1, 2,                           /* posts of each stage */
    4, 1, 1,                        /* choices of each post */
    2, 0, 1, 1, 0, 1, 1, 0, 0, 0,   /* left column */
    10, 1, 1, 12, 2, 9, 2, 20, 4, 9 /* right column */
};
#define WORDS (sizeof BOOK / sizeof BOOK[0])

static void print_answer(uint32_t number) {
    if (number == KBEST_ACCEPTED)
        printf("granted\n");
    else
        printf("refused %u: %s\n", number, kbest_question(number));
}

static void ask(kbest_desk *desk, int dispatcher, size_t rider, size_t rank) {
    printf("dispatcher %d: rider %zu asks for rank %zu: ", dispatcher, rider, rank);
    print_answer(kbest_desk_ask(desk, rider, rank));
}

static void commit(kbest_desk *desk, int dispatcher, size_t rider) {
    printf("dispatcher %d: rider %zu commits: ", dispatcher, rider);
    print_answer(kbest_desk_commit(desk, rider));
}

static void cancel(kbest_desk *desk, int dispatcher, size_t rider) {
    printf("dispatcher %d: rider %zu cancels: ", dispatcher, rider);
    print_answer(kbest_desk_cancel(desk, rider));
}

static void reserve(kbest_desk *desk) {
    ask(desk, 1, 3, 1);
    ask(desk, 2, 7, 1); /* with rider 3 */
    ask(desk, 2, 7, 2);
    cancel(desk, 1, 3);
    ask(desk, 2, 7, 1); /* free again */
    ask(desk, 1, 3, 2); /* rider 7 dropped it when the other was granted */
    commit(desk, 1, 3);
    commit(desk, 2, 7);
    commit(desk, 2, 7); /* the hold has ended */
    ask(desk, 1, 3, 3); /* committed already */
    ask(desk, 2, 16, 3);
    ask(desk, 1, 5, ASKED + 1);
    ask(desk, 1, 5, 3);
}

static void print_rank(const char *what, size_t rank) {
    if (rank == 0)
        printf(" %s -", what);
    else
        printf(" %s %zu", what, rank);
}

static void print_riders(const kbest_desk *desk) {
    for (size_t rider = 0; rider < KBEST_RIDERS; rider++) {
        size_t held = kbest_desk_held(desk, rider), committed = kbest_desk_committed(desk, rider);
        if (held != 0 || committed != 0) {
            printf("rider %zu:", rider);
            print_rank("held", held);
            print_rank("committed", committed);
            printf("\n");
        }
    }
}

int main(void) {
    uint8_t record[KBEST_RECORD_MOST];
    size_t length;
    kbest_desk desk = kbest_desk_fresh();
    uint32_t no = kbest_write(BOOK, WORDS, ASKED, record, sizeof record, &length);
    if (no == KBEST_ACCEPTED)
        no = kbest_desk_open(&desk, record, length);
    if (no != KBEST_ACCEPTED) {
        fprintf(stderr, "refused %u: %s\n", no, kbest_question(no));
        return 1;
    }
    printf("opened: %d plans\n", desk.k);
    reserve(&desk);
    print_riders(&desk);
    return 0;
}
