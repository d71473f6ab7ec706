/* example FILE: lists the three best plans of a book, also as a screen does, says where plans stand and which keep a limit, files the record in FILE, reads the
 * file again and prints what it lists. */
#include <errno.h>
#include <stdio.h>
#include <string.h>

#include "kbest.h"

#define ASKED 3

static const int32_t BOOK[] = {
    2, 1, 7,             /* D, H, L */
    1, 2,                /* posts of each stage */
    2, 1, 1,             /* choices of each post */
    2, 0, 1, 1, 0, 0, 0, /* left column */
    10, 1, 1, 12, 2, 4, 9 /* right column */
};
#define WORDS (sizeof BOOK / sizeof BOOK[0])
#define POSTS 3
#define CHOICES 4

static int refused(uint32_t number) {
    fprintf(stderr, "refused %u: %s\n", number, kbest_question(number));
    return 1;
}

static int failed(const char *path) {
    fprintf(stderr, "%s: %s\n", path, strerror(errno));
    return 1;
}

static void print_plan(size_t rank, int64_t cost, const uint8_t *plan, size_t posts) {
    printf("%zu %lld", rank, (long long)cost);
    for (size_t p = 0; p < posts; p++) {
        if (plan[p] == KBEST_NOT_REACHED)
            printf(" -");
        else
            printf(" %d", plan[p]);
    }
    printf("\n");
}

static int list(void) {
    int64_t costs[ASKED], least, last;
    uint8_t plans[ASKED * POSTS];
    size_t listed;
    uint32_t no = kbest_rank(BOOK, WORDS, ASKED, costs, ASKED, plans, sizeof plans, &listed);
    if (no != KBEST_ACCEPTED)
        return refused(no);
    printf("%zu of %d, scale %llu\n", listed, ASKED, (unsigned long long)kbest_power(BOOK[0], BOOK[1]));
    for (size_t j = 0; j < listed; j++)
        print_plan(j + 1, costs[j], plans + j * POSTS, POSTS);
    no = kbest_least(BOOK, WORDS, &least);
    if (no != KBEST_ACCEPTED)
        return refused(no);
    no = kbest_value(BOOK, WORDS, plans + (listed - 1) * POSTS, POSTS, &last);
    if (no != KBEST_ACCEPTED)
        return refused(no);
    printf("least %lld, last %lld\n", (long long)least, (long long)last);
    return 0;
}

/* The costs of the best plans, as a screen asks for them: it does not know how many plans a book has, so it goes through them, and ranks where they are too
 * many. */
static int print_screen(const int32_t *book, size_t words) {
    int64_t costs[ASKED];
    uint8_t plans[ASKED * KBEST_POSTS_MOST];
    size_t listed;
    const char *way = "by going through the plans";
    uint32_t no = kbest_rank_small(book, words, ASKED, costs, ASKED, plans, sizeof plans, &listed);
    if (no == KBEST_TOO_MANY_PLANS) {
        way = "by ranking";
        no = kbest_rank(book, words, ASKED, costs, ASKED, plans, sizeof plans, &listed);
    }
    if (no != KBEST_ACCEPTED)
        return refused(no);
    printf("%s, %zu of %d:", way, listed, ASKED);
    for (size_t j = 0; j < listed; j++)
        printf(" %lld", (long long)costs[j]);
    printf("\n");
    return 0;
}

/* Sizes of a book of five posts, one a stage, with eight choices each: 8^5 plans. */
enum { LARGE_STAGES = 4, LARGE_CHOICES = 8, LARGE_HEAD = 3 + 2 * (LARGE_STAGES + 1), LARGE_LINES = (2 * LARGE_STAGES + 1) * LARGE_CHOICES };
enum { LARGE_WORDS = LARGE_HEAD + 2 * LARGE_LINES };

/* Choice c of each post costs c and leads to the one post of the next stage. */
static void make_large(int32_t book[LARGE_WORDS]) {
    int32_t *left = book + LARGE_HEAD, *right = left + LARGE_LINES;
    book[0] = 1;
    book[1] = LARGE_STAGES;
    book[2] = LARGE_LINES;
    for (int stage = 0; stage <= LARGE_STAGES; stage++) {
        book[3 + stage] = 1;
        book[4 + LARGE_STAGES + stage] = LARGE_CHOICES;
        for (int c = 0; c < LARGE_CHOICES; c++) {
            *left++ = stage < LARGE_STAGES;
            *right++ = c;
            if (stage < LARGE_STAGES) {
                *left++ = 0;
                *right++ = 1;
            }
        }
    }
}

/* A book of two plans, and one with more than KBEST_SMALL_MOST. */
static int screen(void) {
    int32_t large[LARGE_WORDS];
    make_large(large);
    return print_screen(BOOK, WORDS) || print_screen(large, LARGE_WORDS);
}

/* Where a plan stands in the list of the k best plans of a book that is like BOOK. */
static int print_standing(const int32_t *book, size_t k, const uint8_t plan[POSTS]) {
    uint32_t answer;
    int64_t value;
    uint32_t no = kbest_find(book, WORDS, k, plan, POSTS, &answer, &value);
    if (no != KBEST_ACCEPTED)
        return refused(no);
    long long figure = value;
    if (answer == KBEST_LISTED)
        printf("of %zu: rank %lld\n", k, figure);
    else if (answer == KBEST_COSTS_MORE)
        printf("of %zu: costs %lld more than the last listed\n", k, figure);
    else
        printf("of %zu: costs the same as the last listed, takes the higher choice at post %lld\n", k, figure);
    return 0;
}

/* The second plan of the list, in that list and in the list of one; and the first, where the last cost is made 8, so that both cost the same. */
static int find(void) {
    static const uint8_t FIRST[POSTS] = {1, 0, KBEST_NOT_REACHED}, SECOND[POSTS] = {0, 0, 0};
    int32_t tied[WORDS];
    memcpy(tied, BOOK, sizeof BOOK);
    tied[WORDS - 1] = 8;
    return print_standing(BOOK, ASKED, SECOND) || print_standing(BOOK, 1, SECOND) || print_standing(tied, 1, FIRST);
}

/* The first of the k best plans none of whose days makes more than m marked choices. */
static int print_kept(size_t k, const uint8_t marks[CHOICES], size_t m) {
    uint32_t answer;
    size_t rank;
    uint32_t no = kbest_limit(BOOK, WORDS, k, marks, CHOICES, m, &answer, &rank);
    if (no != KBEST_ACCEPTED)
        return refused(no);
    printf("at most %zu marked, of %zu: ", m, k);
    if (answer == KBEST_KEPT)
        printf("rank %zu\n", rank);
    else if (answer == KBEST_NONE_IN_LIST)
        printf("none in the list\n");
    else
        printf("none in the book\n");
    return 0;
}

/* The choice that the first plan takes at post 0 is marked: the second keeps off it. Then every choice is, and every day makes two. */
static int limit(void) {
    static const uint8_t ONE[CHOICES] = {0, 1, 0, 0}, ALL[CHOICES] = {1, 1, 1, 1};
    return print_kept(ASKED, ONE, 0) || print_kept(1, ONE, 0) || print_kept(ASKED, ALL, 1);
}

static int file_record(const char *path) {
    uint8_t record[KBEST_RECORD_MOST];
    size_t length;
    uint32_t no = kbest_write(BOOK, WORDS, ASKED, record, sizeof record, &length);
    if (no != KBEST_ACCEPTED)
        return refused(no);
    FILE *file = fopen(path, "wb");
    if (file == NULL)
        return failed(path);
    size_t written = fwrite(record, 1, length, file);
    if (fclose(file) != 0 || written != length)
        return failed(path);
    printf("filed %zu bytes\n", length);
    return 0;
}

/* One byte more than the longest record is read, so that a longer file is refused and not cut. */
static int read_file(const char *path, uint8_t record[KBEST_RECORD_MOST + 1], size_t *length) {
    FILE *file = fopen(path, "rb");
    if (file == NULL)
        return failed(path);
    *length = fread(record, 1, KBEST_RECORD_MOST + 1, file);
    int wrong = ferror(file);
    if (fclose(file) != 0 || wrong)
        return failed(path);
    return 0;
}

/* A record has W in its first four bytes and cost j at 12 + 4W + 8j, low byte first, as numbers lie in memory here. */
static int64_t cost_of(const uint8_t *record, size_t j) {
    uint32_t words;
    int64_t cost;
    memcpy(&words, record, sizeof words);
    memcpy(&cost, record + 12 + 4 * words + 8 * j, sizeof cost);
    return cost;
}

static int print_record(const char *path) {
    uint8_t record[KBEST_RECORD_MOST + 1];
    size_t length = 0, posts, listed, offset, shown;
    if (read_file(path, record, &length) != 0)
        return 1;
    uint32_t no = kbest_accept(record, length, &posts, &listed);
    if (no != KBEST_ACCEPTED)
        return refused(no);
    printf("accepted: %zu posts, %zu plans\n", posts, listed);
    for (size_t j = 0; j < listed; j++) {
        kbest_show(record, length, j, &offset, &shown);
        print_plan(j + 1, cost_of(record, j), record + offset, shown);
    }
    return 0;
}

int main(int count, char **words) {
    if (count != 2) {
        fprintf(stderr, "usage: example FILE\n");
        return 2;
    }
    printf("check %u, of two words %u\n", kbest_check(BOOK, WORDS), kbest_check(BOOK, 2));
    if (list() != 0 || screen() != 0 || find() != 0 || limit() != 0 || file_record(words[1]) != 0)
        return 1;
    return print_record(words[1]);
}
