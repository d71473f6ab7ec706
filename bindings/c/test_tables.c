/* Prints the version, the limits and the questions as the header has them, for build.sh to compare with those of the wrappers. */
#include <stdio.h>

#include "kbest.h"

int main(void) {
    printf("version %s %d, library %u\n", KBEST_VERSION_TEXT, KBEST_VERSION, kbest_version());
    printf("most %d %d %d %d\n", KBEST_BOOK_MOST, KBEST_POSTS_MOST, KBEST_PLANS_MOST, KBEST_RECORD_MOST);
    printf("most of small books %d\n", KBEST_SMALL_MOST);
    printf("most of tables %d %d\n", KBEST_TABLE_MOST, KBEST_TABLE_BOOK_MOST);
    printf("riders %d\n", KBEST_RIDERS);
    printf("not reached %d\n", KBEST_NOT_REACHED);
    printf("closed %d\n", KBEST_CLOSED);
    for (uint32_t number = 1; kbest_question(number)[0] != 0; number++)
        printf("refused %u: %s\n", number, kbest_question(number));
    return 0;
}
