"""Prints the version, the limits and the questions as the module has them, for build.sh to compare with those of the header."""

import kbest

print('version %s %d, library %d' % (kbest.VERSION_TEXT, kbest.VERSION, kbest.version()))
print('most %d %d %d %d' % (kbest.BOOK_MOST, kbest.POSTS_MOST, kbest.PLANS_MOST, kbest.RECORD_MOST))
print('most of small books %d' % kbest.SMALL_MOST)
print('most of tables %d %d' % (kbest.TABLE_MOST, kbest.TABLE_BOOK_MOST))
print('riders %d' % kbest.RIDERS)
print('not reached %d' % kbest.NOT_REACHED)
print('closed %d' % kbest.CLOSED)
for number in kbest.QUESTIONS:
    print(kbest.Refused(number))
