#include "report.h"

#include <stdlib.h>
#include <string.h>

static int by_count(const void *left, const void *right)
{
    const struct entry *a = left;
    const struct entry *b = right;

    if (a->count != b->count)
        return a->count < b->count ? 1 : -1;
    return strcmp(a->word, b->word);
}

const char *rank_name(int rank)
{
    switch (rank) {
    case 0:
        return "first";
    case 1:
        return "second";
    default:
        return "later";
    }
}

/* (the compiler warns of the parameter that is never used: a warning comes back with a cached object, too) */
static void print_line(FILE *out, const struct entry *entry, int is_last)
{
    fprintf(out, "%8lu %s\n", entry->count, entry->word);
}

void report(const struct table *table, FILE *out)
{
    struct entry *sorted = malloc((table->used + 1) * sizeof *sorted);
    size_t length = 0;

    if (sorted == NULL)
        return;
    for (size_t i = 0; i < table->capacity; i++)
        if (table->entries[i].word != NULL)
            sorted[length++] = table->entries[i];
    qsort(sorted, length, sizeof *sorted, by_count);
    for (size_t i = 0; i < length; i++)
        print_line(out, &sorted[i], i + 1 == length);
    free(sorted);
}
