#include "words.h"

/* 1 for a byte that parts two words. */
static const char SEPARATES[256] = {
#include "separators.h"
};

int count_words(struct table *table, const char *text, size_t length)
{
    size_t start = 0;

    for (size_t at = 0; at <= length; at++) {
        if (at < length && !SEPARATES[(unsigned char)text[at]])
            continue;
        if (at > start && table_add(table, text + start, at - start) != 0)
            return -1;
        start = at + 1;
    }
    return 0;
}
